//! Lists of specifiers (PEP 440, "Version specifiers").

use crate::{native, Refused, Version};
use std::fmt;
use std::str::FromStr;

/// A list of specifiers, all of which a version has to match. Its members are in the order of their versions.
/// Lists are equal if their members' texts are: `==1` is another list than `==1.0`, although both accept the
/// same versions. They are ordered by these texts.
///
/// As a range, a list is a set of points on the line of versions: of each version, and of the places between
/// two adjacent versions. [`is_disjoint`](VersionSpecifiers::is_disjoint),
/// [`is_subset`](VersionSpecifiers::is_subset) and [`is_empty_range`](VersionSpecifiers::is_empty_range) are
/// exact over points. So two lists that match the same versions can differ in a point: `<2` ends before
/// everything that begins with 2, and `~=1.2` just after that, at `2.dev0`. So `>=1.2,<2` is a subset of
/// `~=1.2`, and `~=1.2` is no subset of `>=1.2,<2`. A list matches a version exactly if the version is a
/// point of its range, provided that the version has no local part, and the list no `===`, no `<` with a
/// post-release and no `>` with anything but a final release; `==1` matches `1+a`, which is a point of
/// `==1+a` alone.
///
/// These three refuse a list whose range needs a number that is greater by one than 2^64 - 1, as that of
/// `~=1.18446744073709551615.0`.
///
/// ```
/// use fowlyore::{Version, VersionSpecifiers};
///
/// let list: VersionSpecifiers = "<2, >= 1.16".parse()?;
/// assert_eq!(list.to_string(), ">=1.16, <2");
/// assert!(list.contains(&"1.19".parse()?));
/// let versions: Vec<Version> = ["1.15", "1.16", "2.0"].iter().map(|it| it.parse()).collect::<Result<_, _>>()?;
/// assert_eq!(list.contains_each(&versions), [false, true, false]);
/// # Ok::<(), fowlyore::Refused>(())
/// ```
#[derive(Clone, Debug, Default, PartialEq, Eq, PartialOrd, Ord, Hash)]
pub struct VersionSpecifiers {
    members: Vec<String>,
}

impl VersionSpecifiers {
    /// The members' normal texts.
    #[must_use]
    pub fn members(&self) -> &[String] {
        &self.members
    }

    /// Whether all members match the version. Pre-releases are treated as any other version.
    #[must_use]
    pub fn contains(&self, version: &Version) -> bool {
        self.marks(&format!("{version}\n")) == "1"
    }

    /// Whether all members match each of the versions, by one call of the library.
    #[must_use]
    pub fn contains_each(&self, versions: &[Version]) -> Vec<bool> {
        let lines: String = versions.iter().map(|it| format!("{it}\n")).collect();
        self.marks(&lines)
            .bytes()
            .map(|mark| mark == b'1')
            .collect()
    }

    /// Whether the ranges of both lists are disjoint: no point is in both.
    ///
    /// ```
    /// use fowlyore::VersionSpecifiers;
    ///
    /// let old: VersionSpecifiers = ">=1,<2".parse()?;
    /// assert!(old.is_disjoint(&">=2".parse()?)?);
    /// assert!(!old.is_disjoint(&">=1.9".parse()?)?);
    /// # Ok::<(), fowlyore::Refused>(())
    /// ```
    ///
    /// # Errors
    ///
    /// `Refused` for a list whose range needs a number past 64 bits.
    pub fn is_disjoint(&self, other: &VersionSpecifiers) -> Result<bool, Refused> {
        native::specifiers_disjoint(&self.list(), &other.list())
    }

    /// Whether this range is a subset of the other one: each of its points is in that.
    ///
    /// ```
    /// use fowlyore::VersionSpecifiers;
    ///
    /// let (compatible, between): (VersionSpecifiers, VersionSpecifiers) = ("~=1.2".parse()?, ">=1.2,<2".parse()?);
    /// assert!(between.is_subset(&compatible)?);
    /// assert!(!compatible.is_subset(&between)?);
    /// # Ok::<(), fowlyore::Refused>(())
    /// ```
    ///
    /// # Errors
    ///
    /// `Refused` for a list whose range needs a number past 64 bits.
    pub fn is_subset(&self, other: &VersionSpecifiers) -> Result<bool, Refused> {
        native::specifiers_subset(&self.list(), &other.list())
    }

    /// Whether the range is empty: no point is in it, as when the list contradicts itself. A list without
    /// members has every point.
    ///
    /// ```
    /// use fowlyore::VersionSpecifiers;
    ///
    /// assert!(">=2,<1".parse::<VersionSpecifiers>()?.is_empty_range()?);
    /// assert!(!">=1,<2".parse::<VersionSpecifiers>()?.is_empty_range()?);
    /// assert!(!VersionSpecifiers::default().is_empty_range()?);
    /// # Ok::<(), fowlyore::Refused>(())
    /// ```
    ///
    /// # Errors
    ///
    /// `Refused` for a list whose range needs a number past 64 bits.
    pub fn is_empty_range(&self) -> Result<bool, Refused> {
        native::specifiers_empty(&self.list())
    }

    /// The text of the list, as the library reads it.
    fn list(&self) -> String {
        self.members.join(",")
    }

    fn marks(&self, lines: &str) -> String {
        native::specifiers_take(&self.list(), lines).expect("normal texts are read")
    }
}

impl FromStr for VersionSpecifiers {
    type Err = Refused;

    fn from_str(text: &str) -> Result<VersionSpecifiers, Refused> {
        let members = native::specifiers(text)?
            .lines()
            .map(String::from)
            .collect();
        Ok(VersionSpecifiers { members })
    }
}

impl fmt::Display for VersionSpecifiers {
    fn fmt(&self, f: &mut fmt::Formatter<'_>) -> fmt::Result {
        f.pad(&self.members.join(", "))
    }
}
