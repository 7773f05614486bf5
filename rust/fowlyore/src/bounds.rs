//! Bounds on what calls make of markers and of lists.

use crate::native;
use crate::{MarkerTree, Refused, Version};

/// How much a call may make of markers and of lists before it refuses them.
///
/// A call that compares or changes markers makes decision trees of them, which may have exponentially more
/// nodes than the markers have comparisons; one that prints a marker makes clauses with `or` between them, of
/// which there may be exponentially more than nodes; one on a list makes the cases of its packages. Calls on a
/// marker are bounded by [`MarkerTree::within`], and those on lists are methods here.
///
/// ```
/// use fowlyore::{Bounds, MarkerTree};
///
/// let usual = Bounds { nodes: 1_000_000, clauses: 100_000, cases: u64::MAX };
/// assert_eq!(Bounds::default(), usual);
/// let pair = |it: usize| format!("extra == 'a{it}' and extra == 'b{it}'");
/// let hostile: MarkerTree = (10..40).map(pair).collect::<Vec<_>>().join(" or ").parse()?;
/// let few = Bounds { nodes: 1000, ..Bounds::default() };
/// let refused = hostile.within(few).is_true().unwrap_err();
/// assert_eq!(refused.message, "more than 1000 nodes");
/// assert!(refused.is_of_nodes());
/// # Ok::<(), fowlyore::Refused>(())
/// ```
#[derive(Clone, Copy, Debug, PartialEq, Eq, Hash)]
pub struct Bounds {
    /// How many nodes the trees of a call's markers may have together, those of a list's lines among them.
    pub nodes: usize,
    /// How many clauses a marker may be printed of, before they are simplified.
    pub clauses: usize,
    /// How many cases of all packages of a list may be made, where each may have as many as a call's limit.
    /// `same` and `covers` make none of a few equal lines, and `conflicts` none of a few with a common version.
    pub cases: u64,
}

impl Bounds {
    /// No bounds.
    pub const NONE: Bounds = Bounds {
        nodes: usize::MAX,
        clauses: usize::MAX,
        cases: u64::MAX,
    };
}

/// 1,000,000 nodes and 100,000 clauses, and no bound on cases.
impl Default for Bounds {
    fn default() -> Bounds {
        Bounds {
            nodes: 1_000_000,
            clauses: 100_000,
            cases: u64::MAX,
        }
    }
}

/// A marker with the bounds of the calls on it, made by [`MarkerTree::within`]. Each call is that of
/// `MarkerTree` with the same name; beyond a bound it returns a `Refused` for which
/// [`is_of_nodes`](Refused::is_of_nodes) or [`is_of_clauses`](Refused::is_of_clauses) is true.
#[derive(Clone, Copy, Debug)]
pub struct Bounded<'a> {
    pub(crate) marker: &'a MarkerTree,
    pub(crate) bounds: Bounds,
}

impl<'a> Bounded<'a> {
    /// Whether it holds under every condition.
    ///
    /// ```
    /// use fowlyore::{Bounds, MarkerTree};
    ///
    /// let always: MarkerTree = "os_name == 'nt' or os_name != 'nt'".parse()?;
    /// assert!(always.within(Bounds::NONE).is_true()?);
    /// # Ok::<(), fowlyore::Refused>(())
    /// ```
    ///
    /// # Errors
    ///
    /// `Refused` beyond the bound on nodes.
    pub fn is_true(self) -> Result<bool, Refused> {
        self.marker.is_always(self.bounds.nodes)
    }

    /// Whether it holds under no condition.
    ///
    /// ```
    /// use fowlyore::{Bounds, MarkerTree};
    ///
    /// assert!(MarkerTree::never().within(Bounds::default()).is_false()?);
    /// # Ok::<(), fowlyore::Refused>(())
    /// ```
    ///
    /// # Errors
    ///
    /// `Refused` beyond the bound on nodes.
    pub fn is_false(self) -> Result<bool, Refused> {
        self.marker.is_never(self.bounds.nodes)
    }

    /// Whether both hold together under no condition.
    ///
    /// ```
    /// use fowlyore::{Bounds, MarkerTree};
    ///
    /// let windows: MarkerTree = "os_name == 'nt'".parse()?;
    /// assert!(windows.within(Bounds::default()).is_disjoint(&"os_name == 'posix'".parse()?)?);
    /// # Ok::<(), fowlyore::Refused>(())
    /// ```
    ///
    /// # Errors
    ///
    /// `Refused` beyond the bound on nodes of both markers together.
    pub fn is_disjoint(self, other: &MarkerTree) -> Result<bool, Refused> {
        native::markers_disjoint(self.text(), other.readable(), self.bounds.nodes)
    }

    /// Whether the other marker holds under each condition under which this one does.
    ///
    /// ```
    /// use fowlyore::{Bounds, MarkerTree};
    ///
    /// let windows: MarkerTree = "os_name == 'nt'".parse()?;
    /// assert!(windows.within(Bounds::default()).implies(&"os_name != 'posix'".parse()?)?);
    /// # Ok::<(), fowlyore::Refused>(())
    /// ```
    ///
    /// # Errors
    ///
    /// `Refused` beyond the bound on nodes of both markers together.
    pub fn implies(self, other: &MarkerTree) -> Result<bool, Refused> {
        native::marker_implies(self.text(), other.readable(), self.bounds.nodes)
    }

    /// The [`key`](MarkerTree::key). Once it is made, comparing, hashing and sorting this marker need no bound.
    ///
    /// ```
    /// use fowlyore::{Bounds, MarkerTree};
    ///
    /// let windows: MarkerTree = "os_name == 'nt'".parse()?;
    /// assert_eq!(windows.within(Bounds::default()).key()?, windows.key());
    /// # Ok::<(), fowlyore::Refused>(())
    /// ```
    ///
    /// # Errors
    ///
    /// `Refused` beyond the bound on nodes.
    pub fn key(self) -> Result<&'a [u8], Refused> {
        self.marker.key_of(self.bounds.nodes)
    }

    /// The [`normal`](MarkerTree::normal) text.
    ///
    /// ```
    /// use fowlyore::{Bounds, MarkerTree};
    ///
    /// let marker: MarkerTree = "os_name == 'nt' and extra == 'a'".parse()?;
    /// let refused = marker.within(Bounds { clauses: 0, ..Bounds::default() }).normal().unwrap_err();
    /// assert!(refused.is_of_clauses());
    /// # Ok::<(), fowlyore::Refused>(())
    /// ```
    ///
    /// # Errors
    ///
    /// `Refused` for a marker without a normal text, and beyond either bound.
    pub fn normal(self) -> Result<String, Refused> {
        native::marker(self.text(), self.bounds)
    }

    /// The negation.
    ///
    /// ```
    /// use fowlyore::{Bounds, MarkerTree};
    ///
    /// let windows: MarkerTree = "os_name == 'nt'".parse()?;
    /// assert_eq!(windows.within(Bounds::default()).negate()?, "os_name != 'nt'".parse()?);
    /// # Ok::<(), fowlyore::Refused>(())
    /// ```
    ///
    /// # Errors
    ///
    /// `Refused` if the negation has no normal text, except if it never holds, and beyond either bound.
    pub fn negate(self) -> Result<MarkerTree, Refused> {
        MarkerTree::of_normal(native::marker_negated(self.text(), self.bounds))
    }

    /// The marker simplified for versions of Python.
    ///
    /// ```
    /// use fowlyore::{Bounds, MarkerTree};
    ///
    /// let marker: MarkerTree = "python_version >= '3.8' and os_name == 'nt'".parse()?;
    /// let simple = marker.within(Bounds::default()).simplify_python_versions(Some(&"3.9".parse()?), None)?;
    /// assert_eq!(simple, "os_name == 'nt'".parse()?);
    /// # Ok::<(), fowlyore::Refused>(())
    /// ```
    ///
    /// # Errors
    ///
    /// `Refused` if it has no normal text, except if it never holds, and beyond either bound.
    pub fn simplify_python_versions(
        self,
        lower: Option<&Version>,
        upper: Option<&Version>,
    ) -> Result<MarkerTree, Refused> {
        let (lower, upper) = (bound(lower), bound(upper));
        let simple = native::marker_simplify_python(self.text(), lower, upper, self.bounds);
        MarkerTree::of_normal(simple)
    }

    /// The marker under the assumption that these extras are present.
    ///
    /// ```
    /// use fowlyore::{Bounds, MarkerTree};
    ///
    /// let marker: MarkerTree = "extra == 'a' and os_name == 'nt'".parse()?;
    /// let simple = marker.within(Bounds::default()).simplify_extras(&["a"])?;
    /// assert_eq!(simple, "os_name == 'nt'".parse()?);
    /// # Ok::<(), fowlyore::Refused>(())
    /// ```
    ///
    /// # Errors
    ///
    /// `Refused` for an extra that is not a name, for a marker without a normal text, except if it never holds,
    /// and beyond either bound.
    pub fn simplify_extras(self, extras: &[&str]) -> Result<MarkerTree, Refused> {
        let simple = native::marker_simplify_extras(self.text(), extras, self.bounds);
        MarkerTree::of_normal(simple)
    }

    fn text(self) -> &'a str {
        self.marker.readable()
    }
}

/// The text of a bound, which is empty for no bound.
fn bound(version: Option<&Version>) -> &str {
    version.map_or("", Version::as_str)
}
