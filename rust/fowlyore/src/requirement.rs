//! Requirements (PEP 508).

use crate::refused::on_one_line;
use crate::{native, MarkerTree, Refused, VersionSpecifiers};
use std::fmt;
use std::str::FromStr;

/// A requirement, of one line. Requirements are equal if their fields are, and ordered by their names, then
/// by the fields after it. Requirements that only differ in their markers are ordered by the keys of these
/// ([`MarkerTree`]). So comparing those, and hashing any, panics for a marker whose tree has more nodes than
/// [`Bounds::default`](crate::Bounds::default), unless its key was asked for within other bounds before.
///
/// ```
/// use fowlyore::Requirement;
///
/// let line: Requirement = "Requests[Socks] >= 2.8.1 ; python_version < '3.13'".parse()?;
/// assert_eq!((line.name.as_str(), line.extras.as_slice()), ("requests", &["socks".to_string()][..]));
/// assert_eq!(line.marker.as_given(), "python_version < '3.13'");
/// assert_eq!(line.to_string(), "requests[socks]>=2.8.1 ; python_full_version < '3.13'");
/// assert!(line > "numpy ; os_name == 'nt'".parse()?);
/// # Ok::<(), fowlyore::Refused>(())
/// ```
#[derive(Clone, Debug, PartialEq, Eq, PartialOrd, Ord, Hash)]
pub struct Requirement {
    /// The package's normal name.
    pub name: String,
    /// The extras' normal names.
    pub extras: Vec<String>,
    /// The specifiers that its version has to match. Empty if there is a URL.
    pub specifiers: VersionSpecifiers,
    /// The URL of the package, if the requirement has one.
    pub url: Option<String>,
    /// When it applies, as written in the text; a marker that always holds if there is none in the text.
    pub marker: MarkerTree,
}

impl FromStr for Requirement {
    type Err = Refused;

    fn from_str(text: &str) -> Result<Requirement, Refused> {
        on_one_line(text)?;
        let parts = native::requirement(text)?;
        let mut parts = parts.splitn(5, '\n');
        let mut part = || parts.next().expect("a requirement has five parts");
        let (name, extras, specifiers, url, place) = (part(), part(), part(), part(), part());
        Ok(Requirement {
            name: name.to_owned(),
            extras: extras
                .split(',')
                .filter(|it| !it.is_empty())
                .map(String::from)
                .collect(),
            specifiers: specifiers.parse()?,
            url: Some(url).filter(|it| !it.is_empty()).map(String::from),
            marker: MarkerTree::read_already(part_of(text, place)),
        })
    }
}

/// The part of a text at a place, which is the first byte and the number of bytes, or empty for no part.
fn part_of<'text>(text: &'text str, place: &str) -> &'text str {
    let number = |it: &str| it.parse::<usize>().expect("a place has two numbers");
    match place.split_once(' ') {
        None => "",
        Some((start, len)) => &text[number(start)..][..number(len)],
    }
}

/// Prints the parts' normal texts, and the marker as it prints itself; one that always holds is omitted. The
/// print is read again as an equal requirement.
///
/// ```
/// use fowlyore::Requirement;
///
/// let line: Requirement = "Foo @ https://example.org/;x ; os_name != \"x' and sys_platform == 'win32\"".parse()?;
/// assert_eq!(line.to_string(), "foo @ https://example.org/;x ; os_name != \"x' and sys_platform == 'win32\"");
/// assert_eq!(line.to_string().parse::<Requirement>()?, line);
/// # Ok::<(), fowlyore::Refused>(())
/// ```
impl fmt::Display for Requirement {
    fn fmt(&self, f: &mut fmt::Formatter<'_>) -> fmt::Result {
        let mut text = self.name.clone();
        if !self.extras.is_empty() {
            text += &format!("[{}]", self.extras.join(","));
        }
        text += &self.specifiers.members().join(",");
        if let Some(url) = &self.url {
            text += &format!(" @ {url}");
        }
        match self.marker.to_string() {
            marker if marker.is_empty() => {}
            marker => text += &format!(" ; {marker}"),
        }
        f.pad(&text)
    }
}
