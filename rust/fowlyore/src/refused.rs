//! Refusals.

use std::error::Error;
use std::fmt;

/// Why a text was refused, and where.
///
/// ```
/// let refused = fowlyore::check(b"foo>=1\nbar>>2\n", b"{}", b"", &[]).unwrap_err();
/// assert_eq!((refused.input, refused.line, refused.start, refused.len), (1, 2, 3, 3));
/// let refused = "foo ;".parse::<fowlyore::Requirement>().unwrap_err();
/// assert_eq!((refused.start, refused.len), (5, 1));
/// let refused = "foo @".parse::<fowlyore::Requirement>().unwrap_err();
/// assert_eq!((refused.start, refused.len), (5, 0));
/// ```
#[derive(Clone, Debug, PartialEq, Eq, Hash)]
pub struct Refused {
    /// What is wrong.
    pub message: String,
    /// The number of the text at fault in the call, from 1; 0 if there is none.
    pub input: u32,
    /// The number of the line at fault, from 1; 0 if the text isn't read by lines.
    pub line: usize,
    /// The first byte at fault, in the line or the text.
    pub start: usize,
    /// The number of bytes at fault: 1 for what is missing, at the end or where it should stand, but 0 for a URL, a
    /// marker's operator and an empty piece of a list; of what follows a marker all but the last character; 0 if
    /// it is unknown.
    pub len: usize,
}

impl Refused {
    /// Whether markers' trees have more nodes than the call may make ([`Bounds`](crate::Bounds)).
    #[must_use]
    pub fn is_of_nodes(&self) -> bool {
        self.excess() == Some("nodes")
    }

    /// Whether a marker would be printed of more clauses than the call may make ([`Bounds`](crate::Bounds)).
    #[must_use]
    pub fn is_of_clauses(&self) -> bool {
        let counted = self.excess();
        counted.map_or(false, |it| it == "clauses" || is_of_package(it, "clauses"))
    }

    /// Whether the packages of a list together have more cases than the call may make
    /// ([`Bounds`](crate::Bounds)).
    #[must_use]
    pub fn is_of_cases(&self) -> bool {
        self.excess() == Some("cases in all")
    }

    /// Whether a package of a list has more cases than the call's `limit`.
    ///
    /// ```
    /// let refused = fowlyore::conflicts(b"foo\nfoo ; os_name == 'nt'\n", 1).unwrap_err();
    /// assert_eq!(refused.message, "requirements: more than 1 cases for foo");
    /// assert!(refused.is_of_limit() && !refused.is_of_cases());
    /// ```
    #[must_use]
    pub fn is_of_limit(&self) -> bool {
        self.excess().map_or(false, |it| is_of_package(it, "cases"))
    }

    /// What there is more of than a bound, as it is said after the number. Nothing but the name of an input and
    /// the number of a line stands before that: what follows a `: ` elsewhere may be of a text that was refused.
    fn excess(&self) -> Option<&str> {
        let of_input = |it: &str| it.bytes().all(|byte| byte.is_ascii_lowercase());
        let of_line = |it: &str| it.strip_prefix("line ").map_or(false, is_number);
        let said = behind(behind(&self.message, of_input), of_line);
        let (number, counted) = said.strip_prefix("more than ")?.split_once(' ')?;
        is_number(number).then_some(counted)
    }
}

/// What follows the first `: ` of a text, if what stands before that is so; otherwise the text.
fn behind(text: &str, is_so: impl Fn(&str) -> bool) -> &str {
    match text.split_once(": ") {
        Some((front, rest)) if is_so(front) => rest,
        _ => text,
    }
}

fn is_number(text: &str) -> bool {
    text.bytes().all(|it| it.is_ascii_digit())
}

/// Whether that many of something are said of one package.
fn is_of_package(said: &str, counted: &str) -> bool {
    let behind = said.strip_prefix(counted);
    let package = behind.and_then(|it| it.strip_prefix(" for "));
    package.map_or(false, |name| name.bytes().all(is_of_name))
}

fn is_of_name(byte: u8) -> bool {
    byte.is_ascii_lowercase() || byte.is_ascii_digit() || byte == b'-'
}

impl fmt::Display for Refused {
    fn fmt(&self, f: &mut fmt::Formatter<'_>) -> fmt::Result {
        f.pad(&self.message)
    }
}

impl Error for Refused {}

/// Refuses a text of more than one line: PEP 508 has no line feed, and the library's batches have lines.
pub(crate) fn on_one_line(text: &str) -> Result<(), Refused> {
    let blanks = text.len() - text.trim_start().len();
    match text.trim().find('\n') {
        None => Ok(()),
        Some(at) => Err(Refused {
            message: format!("{text:?} goes over more than one line"),
            input: 1,
            line: 0,
            start: blanks + at,
            len: 1,
        }),
    }
}
