//! The grammar of what the commands print (docs/COMMANDS.md). Texts are taken apart into slices, and what
//! doesn't fit is refused at its place. Nothing here calls the library.

/// A place at which a text doesn't fit: a byte from 0, and what has to stand there.
#[derive(Clone, Copy, Debug, PartialEq, Eq)]
pub struct Misfit {
    pub at: usize,
    pub wanted: &'static str,
}

/// The parts of a row of `check`. The outcome is `none`, `direct`, or another text of the characters of
/// versions.
#[derive(Clone, Debug, PartialEq, Eq)]
pub struct RowParts<'text> {
    pub package: &'text str,
    pub extras: Vec<&'text str>,
    pub outcome: &'text str,
}

/// The parts of a line of `conflicts`.
#[derive(Clone, Debug, PartialEq, Eq)]
pub struct ConflictParts<'text> {
    pub package: &'text str,
    pub lines: Vec<usize>,
    pub names_prerelease: bool,
}

/// The parts of what `covers` prints of a package that isn't covered.
#[derive(Clone, Debug, PartialEq, Eq)]
pub struct UncoveredParts<'text> {
    pub package: &'text str,
    pub place: &'text str,
    pub lines: Vec<usize>,
}

/// The parts of a row without its line feed: `NAME OUTCOME`, or `NAME[EXTRA,..] OUTCOME` with extras that
/// rise by their bytes.
pub fn row(line: &str) -> Result<RowParts<'_>, Misfit> {
    let package = name_at(line, 0)?;
    let (extras, end) = extras_at(line, package.len())?;
    let begin = after(line, end, " ", "a blank")?;
    let outcome = &line[begin..];
    let fits = outcome.bytes().take_while(is_of_version).count();
    if outcome.is_empty() || fits < outcome.len() {
        return misfit(begin + fits, "`none`, `direct` or a version");
    }
    Ok(RowParts {
        package,
        extras,
        outcome,
    })
}

/// The extras in brackets at a place, and where they end; there may be none.
fn extras_at(line: &str, begin: usize) -> Result<(Vec<&str>, usize), Misfit> {
    let (mut extras, mut at) = (Vec::new(), begin);
    let mut mark = "[";
    while line[at..].starts_with(mark) {
        let extra = name_at(line, at + 1)?;
        if extras.last().map_or(false, |last| *last >= extra) {
            return misfit(at + 1, "an extra after the one before it");
        }
        extras.push(extra);
        at += 1 + extra.len();
        mark = ",";
    }
    let end = if extras.is_empty() {
        at
    } else {
        after(line, at, "]", "`]`")?
    };
    Ok((extras, end))
}

/// The parts of a line of `conflicts` without its line feed: `NAME NUMBER,..` with numbers that rise from 1,
/// and perhaps ` pre`.
pub fn conflict(line: &str) -> Result<ConflictParts<'_>, Misfit> {
    let package = name_at(line, 0)?;
    let begin = after(line, package.len(), " ", "a blank")?;
    let (lines, at) = numbers_at(line, begin)?;
    let names_prerelease = match &line[at..] {
        "" => false,
        " pre" => true,
        _ => return misfit(at, "`,`, ` pre` or the end"),
    };
    Ok(ConflictParts {
        package,
        lines,
        names_prerelease,
    })
}

/// The numbers at a place, which rise from 1 with commas between them, and where they end.
fn numbers_at(text: &str, begin: usize) -> Result<(Vec<usize>, usize), Misfit> {
    let (mut numbers, mut at) = (Vec::new(), begin);
    loop {
        let (number, end) = number_at(text, at)?;
        if numbers.last().map_or(false, |last| *last >= number) {
            return misfit(at, "a number after the one before it");
        }
        numbers.push(number);
        if !text[end..].starts_with(',') {
            return Ok((numbers, end));
        }
        at = end + 1;
    }
}

/// What `same` prints, without the last line feed: `None` for `yes`, and otherwise the package and the place
/// of the first difference, after a line `no`.
pub fn same(text: &str) -> Result<Option<(&str, &str)>, Misfit> {
    if text == "yes" {
        return Ok(None);
    }
    let begin = after(text, 0, "no\n", "`yes` or `no`")?;
    let package = name_at(text, begin)?;
    let begin = after(text, begin + package.len(), "\n", "a line feed")?;
    let place = &text[begin..];
    match place.find('\n') {
        None if place.is_empty() => misfit(begin, "a marker or `all environments`"),
        None => Ok(Some((package, place))),
        Some(at) => misfit(begin + at, "the end"),
    }
}

/// What `covers` prints, without the last line feed: `None` for `yes`, and otherwise the package that isn't
/// covered, the place, and the numbers of lines, after a line `no`.
pub fn covers(text: &str) -> Result<Option<UncoveredParts<'_>>, Misfit> {
    if text == "yes" {
        return Ok(None);
    }
    let begin = after(text, 0, "no\n", "`yes` or `no`")?;
    let package = name_at(text, begin)?;
    let begin = after(text, begin + package.len(), "\n", "a line feed")?;
    let length = text[begin..].find('\n').unwrap_or(text.len() - begin);
    let place = &text[begin..begin + length];
    if place.is_empty() {
        return misfit(begin, "a marker or `all environments`");
    }
    let at = after(text, begin + length, "\n", "a line feed")?;
    let (lines, end) = numbers_at(text, at)?;
    if end < text.len() {
        return misfit(end, "`,` or the end");
    }
    Ok(Some(UncoveredParts {
        package,
        place,
        lines,
    }))
}

/// The lines of an answer, without their line feeds. `None` if the last one has no line feed.
pub fn lines(text: &str) -> Option<std::str::SplitTerminator<'_, char>> {
    let is_whole = text.is_empty() || text.ends_with('\n');
    is_whole.then(|| text.split_terminator('\n'))
}

/// The rows of each environment in what `matrix` prints for `count` of them. `None` if they can't be told
/// from the lines `env NUMBER` before them: a row of the package `env` may look like such a line.
pub fn environments(text: &str, count: usize) -> Option<Vec<&str>> {
    let (mut headings, mut at) = (Vec::with_capacity(count), 0);
    for line in text.split_inclusive('\n') {
        let end = at + line.len();
        if let Some(number) = heading(line) {
            headings.push((number, at, end));
        }
        at = end;
    }
    let begins = headings.first().map_or(text.len(), |it| it.1);
    let numbered = headings.iter().enumerate().all(|(at, it)| it.0 == at + 1);
    if headings.len() != count || begins != 0 || !numbered {
        return None;
    }
    let ends = headings.iter().skip(1).map(|it| it.1).chain([text.len()]);
    let each = headings.iter().zip(ends);
    Some(each.map(|(it, end)| &text[it.2..end]).collect())
}

/// The number of an environment, of a line that looks like the one before its rows.
fn heading(line: &str) -> Option<usize> {
    let digits = line.strip_prefix("env ")?.strip_suffix('\n')?;
    match number_at(digits, 0) {
        Ok((number, end)) if end == digits.len() => Some(number),
        _ => None,
    }
}

/// The name at a place, in normal form (PEP 503): letters and digits in lower case, with single `-` between.
fn name_at(text: &str, at: usize) -> Result<&str, Misfit> {
    let rest = &text[at..];
    let length = rest.bytes().take_while(is_of_name).count();
    let name = &rest[..length];
    if name.split('-').any(str::is_empty) {
        return misfit(at, "a name in normal form");
    }
    Ok(name)
}

/// The number at a place, from 1 and without a 0 at its front, and where it ends.
fn number_at(text: &str, at: usize) -> Result<(usize, usize), Misfit> {
    let rest = &text[at..];
    let length = rest.bytes().take_while(u8::is_ascii_digit).count();
    let digits = &rest[..length];
    match digits.parse() {
        Ok(number) if !digits.starts_with('0') => Ok((number, at + length)),
        _ => misfit(at, "a number from 1"),
    }
}

/// Where a text goes on after some characters that have to be there.
fn after(text: &str, at: usize, mark: &str, wanted: &'static str) -> Result<usize, Misfit> {
    if text[at..].starts_with(mark) {
        Ok(at + mark.len())
    } else {
        misfit(at, wanted)
    }
}

fn is_of_name(byte: &u8) -> bool {
    matches!(byte, b'a'..=b'z' | b'0'..=b'9' | b'-')
}

fn is_of_version(byte: &u8) -> bool {
    matches!(byte, b'a'..=b'z' | b'0'..=b'9' | b'.' | b'!' | b'+')
}

fn misfit<Parts>(at: usize, wanted: &'static str) -> Result<Parts, Misfit> {
    Err(Misfit { at, wanted })
}
