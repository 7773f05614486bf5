//! What the commands answer, as values. Each prints as its command does and is read from that print.

use crate::grammar::{self, Misfit};
use crate::{Refused, Version};
use std::fmt;
use std::str::FromStr;

/// The row of a required package, as [`check`](crate::check) returns it.
///
/// ```
/// use fowlyore::{Outcome, Row};
///
/// let row: Row = "foo[bar,baz] 1.5".parse()?;
/// assert_eq!((row.package.as_str(), row.extras.len()), ("foo", 2));
/// assert_eq!(row.outcome, Outcome::Version("1.5".parse()?));
/// assert_eq!(row.to_string(), "foo[bar,baz] 1.5");
/// assert_eq!("Foo 1.5".parse::<Row>().unwrap_err().message, "no row: a name in normal form is expected at byte 0");
/// # Ok::<(), fowlyore::Refused>(())
/// ```
#[derive(Clone, Debug, PartialEq, Eq, Hash)]
pub struct Row {
    /// The package's normal name.
    pub package: String,
    /// The normal names of the extras that its lines require, sorted by their bytes.
    pub extras: Vec<String>,
    /// What its lines accept.
    pub outcome: Outcome,
}

/// What the lines of a required package accept.
#[derive(Clone, Debug, PartialEq, Eq, Hash)]
pub enum Outcome {
    /// No candidate.
    None,
    /// A line has a URL.
    Direct,
    /// The highest candidate that all lines accept.
    Version(Version),
}

impl Outcome {
    /// The version, if there is one.
    #[must_use]
    pub fn version(&self) -> Option<&Version> {
        match self {
            Outcome::Version(version) => Some(version),
            Outcome::None | Outcome::Direct => None,
        }
    }
}

/// A case of a package in which its lines contradict each other, as [`conflicts`](crate::conflicts) returns
/// it.
///
/// ```
/// use fowlyore::Conflict;
///
/// let conflict: Conflict = "foo 1,12 pre".parse()?;
/// let wanted = Conflict { package: "foo".into(), lines: vec![1, 12], names_prerelease: true };
/// assert_eq!(conflict, wanted);
/// assert_eq!(conflict.to_string(), "foo 1,12 pre");
/// # Ok::<(), fowlyore::Refused>(())
/// ```
#[derive(Clone, Debug, PartialEq, Eq, Hash)]
pub struct Conflict {
    /// The package's normal name.
    pub package: String,
    /// The numbers of the lines, from 1, rising.
    pub lines: Vec<usize>,
    /// Whether one of the lines names a pre-release.
    pub names_prerelease: bool,
}

/// Whether two lists require the same, as [`same`](crate::same) returns it.
///
/// ```
/// use fowlyore::Same;
///
/// let no = Same::No { package: "foo".into(), marker: Some("os_name == 'nt'".into()) };
/// assert_eq!("no\nfoo\nos_name == 'nt'".parse(), Ok(no.clone()));
/// assert_eq!(no.to_string(), "no\nfoo\nos_name == 'nt'");
/// assert_eq!("no\nfoo\nall environments".parse(), Ok(Same::No { package: "foo".into(), marker: None }));
/// ```
#[derive(Clone, Debug, PartialEq, Eq, Hash)]
pub enum Same {
    /// Both lists require the same of every package, whatever the truth of their markers is.
    Yes,
    /// The lists require different things.
    No {
        /// The first package by name that differs.
        package: String,
        /// The print of a marker that holds exactly where the first difference is, or `None` if that is
        /// everywhere. The print of a marker without a normal text ([`MarkerTree`](crate::MarkerTree)) may
        /// not be read back.
        marker: Option<String>,
    },
}

/// Whether a lock covers requirements, as [`covers`](crate::covers) returns it.
///
/// ```
/// use fowlyore::Covers;
///
/// let no = Covers::No { package: "foo".into(), marker: Some("os_name == 'nt'".into()), lines: vec![1, 3] };
/// assert_eq!("no\nfoo\nos_name == 'nt'\n1,3".parse(), Ok(no.clone()));
/// assert_eq!(no.to_string(), "no\nfoo\nos_name == 'nt'\n1,3");
/// ```
#[derive(Clone, Debug, PartialEq, Eq, Hash)]
pub enum Covers {
    /// The lock requires whatever the requirements do, whatever the truth of their markers is.
    Yes,
    /// The lock doesn't cover the requirements.
    No {
        /// The first package by name that isn't covered.
        package: String,
        /// The print of a marker that holds exactly where the first place is at which it isn't, or `None` if
        /// that is everywhere. The print of a marker without a normal text
        /// ([`MarkerTree`](crate::MarkerTree)) may not be read back.
        marker: Option<String>,
        /// The numbers of the requirements' lines that apply there, from 1, rising.
        lines: Vec<usize>,
    },
}

/// What `same` and `covers` print of a place in all environments, instead of a marker.
const EVERYWHERE: &str = "all environments";

/// The marker that is printed as a place, or `None` if that is everywhere.
fn marker_at(place: &str) -> Option<String> {
    (place != EVERYWHERE).then(|| place.to_owned())
}

/// What is printed of a marker that `marker_at` has read.
fn place_of(marker: Option<&str>) -> &str {
    marker.unwrap_or(EVERYWHERE)
}

/// The numbers of lines as they are printed.
fn numbers_of(lines: &[usize]) -> String {
    let numbers: Vec<String> = lines.iter().map(usize::to_string).collect();
    numbers.join(",")
}

impl Row {
    /// The row of a line that the library has printed, in which versions have their normal texts.
    pub(crate) fn of_printed(line: &str) -> Row {
        let parts = grammar::row(line).expect("the library prints rows");
        let outcome = match parts.outcome {
            "none" => Outcome::None,
            "direct" => Outcome::Direct,
            text => {
                Outcome::Version(Version::of_normal(text).expect("the library prints versions"))
            }
        };
        Row::of_parts(&parts, outcome)
    }

    fn of_parts(parts: &grammar::RowParts<'_>, outcome: Outcome) -> Row {
        Row {
            package: parts.package.to_owned(),
            extras: parts.extras.iter().copied().map(String::from).collect(),
            outcome,
        }
    }
}

impl FromStr for Row {
    type Err = Refused;

    /// The row of a line without its line feed.
    ///
    /// # Errors
    ///
    /// `Refused` for anything that isn't printed so, also for names and versions that are not in normal form.
    fn from_str(line: &str) -> Result<Row, Refused> {
        let parts = grammar::row(line).map_err(|it| refused("row", it, line))?;
        let outcome = match parts.outcome {
            "none" => Outcome::None,
            "direct" => Outcome::Direct,
            text => Outcome::Version(normal_version(text).ok_or_else(|| {
                let (at, wanted) = (line.len() - text.len(), "a version in normal form");
                refused("row", Misfit { at, wanted }, line)
            })?),
        };
        Ok(Row::of_parts(&parts, outcome))
    }
}

/// The version of a text that is its print.
fn normal_version(text: &str) -> Option<Version> {
    let version = text.parse::<Version>().ok();
    version.filter(|it| it.as_str() == text)
}

impl fmt::Display for Row {
    fn fmt(&self, f: &mut fmt::Formatter<'_>) -> fmt::Result {
        let mut extras = self.extras.join(",");
        if !extras.is_empty() {
            extras = format!("[{extras}]");
        }
        f.pad(&format!("{}{extras} {}", self.package, self.outcome))
    }
}

impl fmt::Display for Outcome {
    fn fmt(&self, f: &mut fmt::Formatter<'_>) -> fmt::Result {
        match self {
            Outcome::None => f.pad("none"),
            Outcome::Direct => f.pad("direct"),
            Outcome::Version(version) => version.fmt(f),
        }
    }
}

impl FromStr for Conflict {
    type Err = Refused;

    /// The conflict of a line without its line feed.
    ///
    /// # Errors
    ///
    /// `Refused` for anything that isn't printed so, also for a name that is not in normal form.
    fn from_str(line: &str) -> Result<Conflict, Refused> {
        let parts = grammar::conflict(line).map_err(|it| refused("conflict", it, line))?;
        Ok(Conflict {
            package: parts.package.to_owned(),
            lines: parts.lines,
            names_prerelease: parts.names_prerelease,
        })
    }
}

impl fmt::Display for Conflict {
    fn fmt(&self, f: &mut fmt::Formatter<'_>) -> fmt::Result {
        let end = if self.names_prerelease { " pre" } else { "" };
        let numbers = numbers_of(&self.lines);
        f.pad(&format!("{} {numbers}{end}", self.package))
    }
}

impl FromStr for Same {
    type Err = Refused;

    /// The answer of a text without its last line feed.
    ///
    /// # Errors
    ///
    /// `Refused` for anything that isn't printed so, also for a name that is not in normal form.
    fn from_str(text: &str) -> Result<Same, Refused> {
        let parts = grammar::same(text).map_err(|it| refused("comparison", it, text))?;
        Ok(parts.map_or(Same::Yes, |(package, place)| Same::No {
            package: package.to_owned(),
            marker: marker_at(place),
        }))
    }
}

impl fmt::Display for Same {
    fn fmt(&self, f: &mut fmt::Formatter<'_>) -> fmt::Result {
        match self {
            Same::Yes => f.pad("yes"),
            Same::No { package, marker } => {
                let place = place_of(marker.as_deref());
                f.pad(&format!("no\n{package}\n{place}"))
            }
        }
    }
}

impl FromStr for Covers {
    type Err = Refused;

    /// The answer of a text without its last line feed.
    ///
    /// # Errors
    ///
    /// `Refused` for anything that isn't printed so, also for a name that is not in normal form.
    fn from_str(text: &str) -> Result<Covers, Refused> {
        let parts = grammar::covers(text).map_err(|it| refused("covering", it, text))?;
        Ok(parts.map_or(Covers::Yes, |it| Covers::No {
            package: it.package.to_owned(),
            marker: marker_at(it.place),
            lines: it.lines,
        }))
    }
}

impl fmt::Display for Covers {
    fn fmt(&self, f: &mut fmt::Formatter<'_>) -> fmt::Result {
        match self {
            Covers::Yes => f.pad("yes"),
            Covers::No {
                package,
                marker,
                lines,
            } => {
                let (place, numbers) = (place_of(marker.as_deref()), numbers_of(lines));
                f.pad(&format!("no\n{package}\n{place}\n{numbers}"))
            }
        }
    }
}

/// The refusal of a text that doesn't fit the grammar of what it is read as.
fn refused(kind: &str, misfit: Misfit, text: &str) -> Refused {
    let rest = &text[misfit.at..];
    Refused {
        message: format!(
            "no {kind}: {} is expected at byte {}",
            misfit.wanted, misfit.at
        ),
        input: 1,
        line: 0,
        start: misfit.at,
        len: rest.chars().next().map_or(0, char::len_utf8),
    }
}
