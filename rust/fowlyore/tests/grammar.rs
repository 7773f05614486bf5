//! The grammar of prints: a made text is taken apart into what it was made of, and a text that would not be
//! printed is refused. These tests don't call the library.

mod drawn;
#[path = "../src/elements.rs"]
mod elements;
#[path = "../src/grammar.rs"]
mod grammar;

use drawn::Draws;
use grammar::{ConflictParts, Misfit, RowParts};

const NAMES: [&str; 12] = [
    "env", "none", "direct", "pre", "a", "0", "a-b", "x1-2-y", "yes", "no", "b", "zz",
];
const OUTCOMES: [&str; 8] = [
    "none",
    "direct",
    "1",
    "2",
    "1.0",
    "1!2.0rc1.post3.dev4+a.1",
    "0",
    "12",
];
const PLACES: [&str; 4] = [
    "all environments",
    "os_name == 'nt'",
    "platform_version == 'a\r\u{2028}b'",
    "yes",
];
/// Strings of JSON.
const STRINGS: [&str; 6] = [
    r#""""#,
    r#""a""#,
    r#""[{\"]}""#,
    r#""\\""#,
    r#""\\\"}""#,
    "\"\u{e9},\"",
];
/// What is put into texts to make others of them.
const PIECES: [&str; 20] = [
    "a", "A", "0", "1", "-", "--", "_", ".", ",", "[", "]", " ", "\n", "\r", "\t", "!", "+",
    "\u{e9}", " pre", "env 1\n",
];

/// Some names, each once, sorted.
fn names(draws: &mut Draws, most: usize) -> Vec<&'static str> {
    let count = draws.below(most + 1);
    let mut found: Vec<_> = (0..count).map(|_| draws.one(&NAMES)).collect();
    found.sort_unstable();
    found.dedup();
    found
}

fn row(draws: &mut Draws, package: &'static str) -> RowParts<'static> {
    RowParts {
        package,
        extras: names(draws, 3),
        outcome: draws.one(&OUTCOMES),
    }
}

fn print_of_row(row: &RowParts<'_>) -> String {
    let extras = match row.extras.as_slice() {
        [] => String::new(),
        extras => format!("[{}]", extras.join(",")),
    };
    format!("{}{extras} {}", row.package, row.outcome)
}

fn conflict(draws: &mut Draws) -> ConflictParts<'static> {
    let (count, mut last) = (1 + draws.below(4), 0);
    let mut number = || {
        last += 1 + draws.below(12);
        last
    };
    ConflictParts {
        lines: (0..count).map(|_| number()).collect(),
        package: draws.one(&NAMES),
        names_prerelease: draws.below(2) == 0,
    }
}

fn print_of_conflict(conflict: &ConflictParts<'_>) -> String {
    let numbers: Vec<_> = conflict.lines.iter().map(usize::to_string).collect();
    let end = if conflict.names_prerelease {
        " pre"
    } else {
        ""
    };
    format!("{} {}{end}", conflict.package, numbers.join(","))
}

/// A text with a piece put in, or a part taken out, or both.
fn edited(draws: &mut Draws, text: &str) -> String {
    let bounds: Vec<usize> = (0..=text.len())
        .filter(|at| text.is_char_boundary(*at))
        .collect();
    let begin = draws.below(bounds.len());
    let end = bounds.len().min(begin + 1 + draws.below(3)) - 1;
    let piece = if draws.below(4) == 0 {
        ""
    } else {
        draws.one(&PIECES)
    };
    format!("{}{piece}{}", &text[..bounds[begin]], &text[bounds[end]..])
}

fn is_name(text: &str) -> bool {
    let is_part = |it: &str| {
        let mut all = it.chars();
        !it.is_empty() && all.all(|c| c.is_ascii_lowercase() || c.is_ascii_digit())
    };
    text.split('-').all(is_part)
}

/// Whether a text is the print of a row, decided from its ends.
fn is_row(text: &str) -> bool {
    let (front, outcome) = match text.split_once(' ') {
        Some(parts) => parts,
        None => return false,
    };
    let (package, extras) = match front.strip_suffix(']').map(|it| it.split_once('[')) {
        None => (front, vec![]),
        Some(Some((package, extras))) => (package, extras.split(',').collect()),
        Some(None) => return false,
    };
    let is_outcome = |c: char| c.is_ascii_lowercase() || c.is_ascii_digit() || ".!+".contains(c);
    is_name(package)
        && extras.iter().all(|it| is_name(it))
        && extras.windows(2).all(|it| it[0] < it[1])
        && !outcome.is_empty()
        && outcome.chars().all(is_outcome)
}

fn is_conflict(text: &str) -> bool {
    let (package, rest) = match text.split_once(' ') {
        Some(parts) => parts,
        None => return false,
    };
    let numbers: Option<Vec<usize>> = rest
        .strip_suffix(" pre")
        .unwrap_or(rest)
        .split(',')
        .map(|it| {
            it.parse()
                .ok()
                .filter(|number: &usize| number.to_string() == it)
        })
        .collect();
    let rises = |it: Vec<usize>| it[0] > 0 && it.windows(2).all(|pair| pair[0] < pair[1]);
    is_name(package) && numbers.map_or(false, rises)
}

fn is_comparison(text: &str) -> bool {
    let lines: Vec<&str> = text.split('\n').collect();
    match lines.as_slice() {
        ["yes"] => true,
        ["no", package, place] => is_name(package) && !place.is_empty(),
        _ => false,
    }
}

/// Counts what was read and what was refused. A refusal is at a place of the text.
fn count<Parts>(counts: &mut [usize; 2], text: &str, found: &Result<Parts, Misfit>) {
    counts[usize::from(found.is_err())] += 1;
    if let Err(misfit) = found {
        assert!(text.is_char_boundary(misfit.at), "{text:?}: {misfit:?}");
    }
}

#[test]
fn made_lines_are_taken_apart() {
    let mut draws = Draws::of(31);
    for _ in 0..5000 {
        let package = draws.one(&NAMES);
        let made = row(&mut draws, package);
        assert_eq!(grammar::row(&print_of_row(&made)), Ok(made));
        let made = conflict(&mut draws);
        assert_eq!(grammar::conflict(&print_of_conflict(&made)), Ok(made));
        let place = draws.one(&PLACES);
        let text = format!("no\n{package}\n{place}");
        assert_eq!(grammar::same(&text), Ok(Some((package, place))));
        let lines = conflict(&mut draws).lines;
        let numbers: Vec<String> = lines.iter().map(usize::to_string).collect();
        let text = format!("{text}\n{}", numbers.join(","));
        let made = grammar::UncoveredParts {
            package,
            place,
            lines,
        };
        assert_eq!(grammar::covers(&text), Ok(Some(made)));
        assert!(grammar::covers(&format!("{text},0")).is_err());
    }
    assert_eq!(grammar::same("yes"), Ok(None));
    assert_eq!(grammar::covers("yes"), Ok(None));
}

#[test]
fn what_would_not_be_printed_is_refused() {
    let mut draws = Draws::of(32);
    let mut counts = [[0; 2]; 3];
    for _ in 0..20000 {
        let package = draws.one(&NAMES);
        let made = print_of_row(&row(&mut draws, package));
        let text = edited(&mut draws, &made);
        let found = grammar::row(&text);
        assert_eq!(found.is_ok(), is_row(&text), "{text:?}: {found:?}");
        assert!(
            found.iter().all(|it| print_of_row(it) == text),
            "{text:?}: {found:?}"
        );
        count(&mut counts[0], &text, &found);

        let made = print_of_conflict(&conflict(&mut draws));
        let text = edited(&mut draws, &made);
        let found = grammar::conflict(&text);
        assert_eq!(found.is_ok(), is_conflict(&text), "{text:?}: {found:?}");
        assert!(
            found.iter().all(|it| print_of_conflict(it) == text),
            "{text:?}: {found:?}"
        );
        count(&mut counts[1], &text, &found);

        let made = format!("no\n{package}\n{}", draws.one(&PLACES));
        let text = edited(&mut draws, &made);
        let found = grammar::same(&text);
        assert_eq!(found.is_ok(), is_comparison(&text), "{text:?}: {found:?}");
        count(&mut counts[2], &text, &found);
    }
    assert!(counts.iter().flatten().all(|it| *it > 1000), "{counts:?}");
}

#[test]
fn lines_end_in_line_feeds_alone() {
    let lines = |text| grammar::lines(text).map(Iterator::collect::<Vec<_>>);
    assert_eq!(lines(""), Some(vec![]));
    assert_eq!(
        lines("a\r\n\n\u{2028}b\n"),
        Some(vec!["a\r", "", "\u{2028}b"])
    );
    assert_eq!(lines("a\nb"), None);
}

/// The rows of environments, some of which are of the package `env`, and their print.
fn tables(draws: &mut Draws) -> (Vec<String>, String) {
    let count = draws.below(5);
    let rows = |draws: &mut Draws| -> String {
        let packages = names(draws, 3).into_iter();
        packages
            .map(|it| print_of_row(&row(draws, it)) + "\n")
            .collect()
    };
    let texts: Vec<String> = (0..count).map(|_| rows(draws)).collect();
    let numbered = (1..).zip(&texts);
    let print = numbered
        .map(|(number, it)| format!("env {number}\n{it}"))
        .collect();
    (texts, print)
}

#[test]
fn environments_are_told_apart_or_not_at_all() {
    let mut draws = Draws::of(33);
    let mut counts = [0; 2];
    for _ in 0..5000 {
        let (texts, print) = tables(&mut draws);
        let alike = |it: &&str| ["env 1", "env 2", "env 12"].contains(it);
        let is_clear = !texts.iter().any(|it| it.lines().any(|line| alike(&line)));
        let found = grammar::environments(&print, texts.len());
        let wanted = is_clear.then(|| texts.iter().map(String::as_str).collect());
        assert_eq!(found, wanted, "{print:?}");
        assert_eq!(
            grammar::environments(&format!("a 1\n{print}"), texts.len()),
            None
        );
        if is_clear {
            assert_eq!(grammar::environments(&print, texts.len() + 1), None);
        }
        counts[usize::from(is_clear)] += 1;
    }
    assert!(counts.iter().all(|it| *it > 50), "{counts:?}");
}

#[test]
fn elements_of_arrays_are_found() {
    let mut draws = Draws::of(34);
    for _ in 0..2000 {
        let mut value = |depth: usize| match draws.below(3 + depth) {
            0 => "1.5e3".to_string(),
            1 | 2 => draws.one(&STRINGS).to_string(),
            3 => format!("[{}, {{}}]", draws.one(&STRINGS)),
            _ => format!(
                "{{{}: [], \"b\": {}}}",
                draws.one(&STRINGS),
                draws.one(&STRINGS)
            ),
        };
        let object = |value: &str| format!("{{\"a\" : {value}, \"c\": [[{value}]]}}");
        let made: Vec<String> = [0, 1, 2].iter().map(|it| object(&value(*it))).collect();
        let count = draws.below(4);
        let blank = draws.one(&["", " ", "\n\t"]);
        let text = format!(
            "{blank}[{blank}{}{blank}]{blank}",
            made[..count].join(&format!("{blank},{blank}"))
        );
        let found = elements::elements(text.as_bytes());
        assert_eq!(
            found,
            made[..count]
                .iter()
                .map(String::as_bytes)
                .collect::<Vec<_>>(),
            "{text}"
        );
    }
}
