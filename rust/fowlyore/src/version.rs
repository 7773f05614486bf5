//! Versions (PEP 440).

use crate::{native, Refused};
use std::cmp::Ordering;
use std::fmt;
use std::hash::{Hash, Hasher};
use std::str::FromStr;

/// A version, which compares by PEP 440, "Summary of permitted suffixes and relative ordering". Its numbers
/// are below 2^64.
///
/// ```
/// use fowlyore::Version;
///
/// let version: Version = "1.0-rc.1".parse()?;
/// assert_eq!(version.to_string(), "1.0rc1");
/// assert!(version < "1.0".parse()?);
/// assert_eq!("1.0".parse::<Version>()?, "1".parse()?);
/// assert!("1.0 final".parse::<Version>().is_err());
/// # Ok::<(), fowlyore::Refused>(())
/// ```
#[derive(Clone, Debug)]
pub struct Version {
    text: Box<str>,
    key: Box<[u8]>,
}

impl Version {
    /// The normal text.
    #[must_use]
    pub fn as_str(&self) -> &str {
        &self.text
    }

    /// The version of a text that the library has printed, by one call for the key.
    pub(crate) fn of_normal(text: &str) -> Option<Version> {
        let key = native::version_key(text)?.into_boxed_slice();
        Some(Version {
            text: text.into(),
            key,
        })
    }

    /// Bytes in whose order versions sort: those of two versions compare as the versions do, and are equal if
    /// these are.
    #[must_use]
    pub fn key(&self) -> &[u8] {
        &self.key
    }
}

impl FromStr for Version {
    type Err = Refused;

    /// The version of a text, by one call for the normal text and one for the key.
    ///
    /// # Errors
    ///
    /// `Refused` for a text that is not a version.
    fn from_str(text: &str) -> Result<Version, Refused> {
        let text = native::version(text)?;
        Ok(Version::of_normal(&text).expect("a normal text is a version's"))
    }
}

impl fmt::Display for Version {
    fn fmt(&self, f: &mut fmt::Formatter<'_>) -> fmt::Result {
        f.pad(&self.text)
    }
}

impl PartialEq for Version {
    fn eq(&self, other: &Version) -> bool {
        self.key == other.key
    }
}

impl Eq for Version {}

impl PartialOrd for Version {
    fn partial_cmp(&self, other: &Version) -> Option<Ordering> {
        Some(self.cmp(other))
    }
}

impl Ord for Version {
    fn cmp(&self, other: &Version) -> Ordering {
        self.key.cmp(&other.key)
    }
}

impl Hash for Version {
    fn hash<H: Hasher>(&self, state: &mut H) {
        self.key.hash(state);
    }
}
