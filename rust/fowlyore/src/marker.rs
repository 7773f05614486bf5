//! Markers (PEP 508, "Environment markers").

use crate::kept::Kept;
use crate::refused::on_one_line;
use crate::{native, Bounded, Bounds, Refused, Version};
use std::cmp::Ordering;
use std::fmt;
use std::hash::{Hash, Hasher};
use std::str::FromStr;
use std::sync::atomic::{AtomicU8, Ordering as MemoryOrdering};

/// A text that always holds, for the marker that has no text.
const ALWAYS: &str = "python_version >= '3' or python_version < '3'";
/// A text that never holds, for the marker that has no normal text.
const NEVER: &str = "python_version >= '3' and python_version < '3'";
/// The greatest depth of a marker's brackets.
const MOST_BRACKETS: usize = 256;
/// The library's byte for a marker that always or never holds; one that sometimes holds has neither.
const ALWAYS_HOLDS: u8 = b'1';
const NEVER_HOLDS: u8 = b'0';
/// The byte while the library was not called yet.
const UNKNOWN: u8 = 0;
/// The byte of a marker of which nothing is known but that its tree has more nodes than `Bounds::default()`.
const BEYOND: u8 = 1;
/// Why a call about a marker's text isn't refused.
const IS_FEW: &str =
    "the text of a marker is read, and its tree has no more nodes than `Bounds::default()`";

/// A marker of one line. `Default` is the one that always holds, and has no text.
///
/// What is stated of markers is stated of conditions: a value of each variable, an answer to each question
/// whether a string contains a text, as `'x' in os_name`, and any extras, all of which are independent of
/// each other. A variable with a deprecated name, as `os.name`, is independent of the one with its new name,
/// while `python_version` is derived from `python_full_version`. So some conditions are met by no
/// environment: under some of them `os_name == 'nt' and 'x' in os_name` holds.
///
/// Markers are equal exactly if they hold under the same conditions, however they are written. Their order
/// agrees with that, and means nothing more.
///
/// Reading a marker makes no print, no key and no decision tree, and takes time linear in its text. Comparing
/// and hashing use the [`key`](MarkerTree::key), which is made on first use and kept; markers with the same
/// text, or that always or never hold, need none.
///
/// # Bounds
///
/// A decision tree may have exponentially more nodes than the marker has comparisons: 30 pairs `extra == 'a01'
/// and extra == 'b01'` joined by `or` have a billion. Calls that return a `Result` refuse a marker beyond
/// [`Bounds::default`], and [`within`](MarkerTree::within) gives each call other bounds. Calls that return no
/// `Result` panic beyond the default bound on nodes: comparing, hashing, `key`, `is_true`, `is_false`,
/// `is_disjoint` and `implies`. So ask the key of a marker from elsewhere by `within` first: once it is made,
/// comparing and hashing it don't panic.
///
/// ```
/// use fowlyore::MarkerTree;
///
/// let marker: MarkerTree = "python_version >= '3.8' and extra == 'socks'".parse()?;
/// assert_eq!(marker, "extra == 'socks' and python_version > '3.7'".parse()?);
/// assert_ne!(marker, "python_version >= '3.8'".parse()?);
/// assert_eq!(marker.to_string(), "python_full_version >= '3.8' and extra == 'socks'");
/// let one: MarkerTree = "os_name == \"a' and sys_platform == 'b\"".parse()?;
/// assert_ne!(one, "os_name == 'a' and sys_platform == 'b'".parse()?);
/// # Ok::<(), fowlyore::Refused>(())
/// ```
#[derive(Default)]
pub struct MarkerTree {
    /// Empty if the marker always holds because nothing was written.
    text: Box<str>,
    /// The connective with which the text was joined here; `None` if it was given.
    joined: Option<Connective>,
    /// The greatest depth of the text's brackets, or more.
    brackets: usize,
    /// When it holds, as far as that is known.
    truth: AtomicU8,
    key: Kept,
}

#[derive(Clone, Copy, PartialEq)]
enum Connective {
    And,
    Or,
}

impl MarkerTree {
    /// The marker that never holds.
    ///
    /// ```
    /// use fowlyore::MarkerTree;
    ///
    /// assert!(MarkerTree::never().is_false());
    /// assert_eq!(MarkerTree::never(), "os_name == 'nt' and os_name == 'posix'".parse()?);
    /// assert_eq!(MarkerTree::never().negate()?, MarkerTree::default());
    /// # Ok::<(), fowlyore::Refused>(())
    /// ```
    #[must_use]
    pub fn never() -> MarkerTree {
        MarkerTree::given(NEVER, NEVER_HOLDS)
    }

    /// The marker of a text that the library has read as one, or of an empty text or white space, which
    /// always holds.
    pub(crate) fn read_already(text: &str) -> MarkerTree {
        MarkerTree::given(text.trim(), UNKNOWN)
    }

    fn given(text: &str, truth: u8) -> MarkerTree {
        MarkerTree {
            text: text.into(),
            joined: None,
            // (brackets in quoted strings are counted too)
            brackets: text.matches('(').count(),
            truth: AtomicU8::new(truth),
            key: Kept::default(),
        }
    }

    /// The marker of a normal text, or the one that has none because it never holds.
    pub(crate) fn of_normal(answer: Result<String, Refused>) -> Result<MarkerTree, Refused> {
        match answer {
            Ok(text) => Ok(MarkerTree {
                // (only clauses have brackets)
                brackets: 1,
                ..MarkerTree::given(&text, UNKNOWN)
            }),
            Err(refused) if native::never_holds(&refused) => Ok(MarkerTree::never()),
            Err(refused) => Err(refused),
        }
    }

    /// The text as it was given, without white space around it, or as it was joined by
    /// [`and`](MarkerTree::and) or [`or`](MarkerTree::or). It is read again as an equal marker. Only the
    /// marker without a text, `Default`, returns an empty text.
    ///
    /// ```
    /// use fowlyore::{MarkerTree, Requirement};
    ///
    /// let line: Requirement = "foo ; os.name == \"nt\" ".parse()?;
    /// assert_eq!(line.marker.as_given(), "os.name == \"nt\"");
    /// assert_eq!(MarkerTree::default().as_given(), "");
    /// # Ok::<(), fowlyore::Refused>(())
    /// ```
    #[must_use]
    pub fn as_given(&self) -> &str {
        &self.text
    }

    /// The normal text: markers with the same meaning have the same, and it is read again as this marker;
    /// empty if it always holds. It can be exponentially long in the marker's own text, and then needs as
    /// much time.
    ///
    /// ```
    /// use fowlyore::MarkerTree;
    ///
    /// let marker: MarkerTree = "python_version>'3.7' and (os_name != \"nt\")".parse()?;
    /// assert_eq!(marker.normal()?, "python_full_version >= '3.8' and os_name != 'nt'");
    /// for (text, why) in [
    ///     ("os_name == \"it's\"", "no normal text: single quote"),
    ///     ("os.name == 'nt'", "no normal text: deprecated key"),
    ///     ("python_full_version in '3.8rc1'", "no normal text: version bound"),
    ///     ("os_name < 'a' and os_name > 'a'", "no normal text: never holds"),
    /// ] {
    ///     assert_eq!(text.parse::<MarkerTree>()?.normal().unwrap_err().message, why);
    /// }
    /// # Ok::<(), fowlyore::Refused>(())
    /// ```
    ///
    /// # Errors
    ///
    /// `Refused` for a marker without a normal text:
    ///
    /// - it depends on a string with a single quote, at which the normal text would end;
    /// - it depends on a variable with a deprecated name, as `os.name`;
    /// - it has a version that is more than release numbers of epoch 0;
    /// - it never holds;
    ///
    /// and for one beyond `Bounds::default()`.
    pub fn normal(&self) -> Result<String, Refused> {
        self.within(Bounds::default()).normal()
    }

    /// The marker with bounds for the calls on it, beyond which each of them returns a `Refused`.
    ///
    /// ```
    /// use fowlyore::{Bounds, MarkerTree};
    ///
    /// let marker: MarkerTree = "os_name == 'nt' and extra == 'a'".parse()?;
    /// let two = Bounds { nodes: 2, ..Bounds::default() };
    /// assert!(marker.within(Bounds::NONE).implies(&"extra == 'a'".parse()?)?);
    /// assert!(marker.within(two).implies(&"extra == 'a'".parse()?).unwrap_err().is_of_nodes());
    /// # Ok::<(), fowlyore::Refused>(())
    /// ```
    #[must_use]
    pub fn within(&self, bounds: Bounds) -> Bounded<'_> {
        Bounded {
            marker: self,
            bounds,
        }
    }

    /// Bytes that are equal exactly if markers are equal, and in whose order markers that sometimes hold are
    /// sorted. They may change with the library. They grow with what the marker means, which may be
    /// exponential in its text, and so does the time to make them; they are made once.
    ///
    /// ```
    /// use fowlyore::MarkerTree;
    ///
    /// let marker: MarkerTree = "os_name == 'nt' and extra == 'a'".parse()?;
    /// assert_eq!(marker.key(), "extra == \"A\" and os_name == 'nt'".parse::<MarkerTree>()?.key());
    /// assert_ne!(marker.key(), "os_name == 'nt'".parse::<MarkerTree>()?.key());
    /// # Ok::<(), fowlyore::Refused>(())
    /// ```
    ///
    /// # Panics
    ///
    /// If the tree has more nodes than `Bounds::default()` ([`within`](MarkerTree::within) returns that).
    #[must_use]
    pub fn key(&self) -> &[u8] {
        self.key_of(Bounds::default().nodes).expect(IS_FEW)
    }

    /// Whether it holds under every condition, and so in every environment with any extras.
    ///
    /// ```
    /// use fowlyore::{MarkerTree, Requirement};
    ///
    /// let always: MarkerTree = "os_name == 'nt' or os_name != 'nt'".parse()?;
    /// assert!(always.is_true());
    /// assert_eq!(always, MarkerTree::default());
    /// assert_eq!("foo".parse::<Requirement>()?.marker, always);
    /// # Ok::<(), fowlyore::Refused>(())
    /// ```
    ///
    /// # Panics
    ///
    /// If the tree has more nodes than `Bounds::default()` ([`within`](MarkerTree::within) returns that).
    #[must_use]
    pub fn is_true(&self) -> bool {
        self.truth() == ALWAYS_HOLDS
    }

    /// Whether it holds under no condition, and so in no environment.
    ///
    /// ```
    /// use fowlyore::MarkerTree;
    ///
    /// assert!("os_name == 'nt' and os_name == 'posix'".parse::<MarkerTree>()?.is_false());
    /// assert!(!"os_name == 'nt'".parse::<MarkerTree>()?.is_false());
    /// # Ok::<(), fowlyore::Refused>(())
    /// ```
    ///
    /// # Panics
    ///
    /// If the tree has more nodes than `Bounds::default()` ([`within`](MarkerTree::within) returns that).
    #[must_use]
    pub fn is_false(&self) -> bool {
        self.truth() == NEVER_HOLDS
    }

    /// Whether both hold together under no condition, and so in no environment.
    ///
    /// ```
    /// use fowlyore::MarkerTree;
    ///
    /// let old: MarkerTree = "python_version < '3.8'".parse()?;
    /// assert!(old.is_disjoint(&"python_version >= '3.9' and os_name == 'nt'".parse()?));
    /// assert!(!old.is_disjoint(&"os_name == 'nt'".parse()?));
    /// # Ok::<(), fowlyore::Refused>(())
    /// ```
    ///
    /// # Panics
    ///
    /// If both trees have more nodes than `Bounds::default()` ([`within`](MarkerTree::within) returns that).
    #[must_use]
    pub fn is_disjoint(&self, other: &MarkerTree) -> bool {
        let bounded = self.within(Bounds::default());
        bounded.is_disjoint(other).expect(IS_FEW)
    }

    /// Whether the other marker holds under each condition under which this one does, and so in each such
    /// environment.
    ///
    /// ```
    /// use fowlyore::MarkerTree;
    ///
    /// let new: MarkerTree = "python_version >= '3.9' and os_name == 'nt'".parse()?;
    /// let windows: MarkerTree = "os_name == 'nt'".parse()?;
    /// assert!(new.implies(&windows));
    /// assert!(!windows.implies(&new));
    /// # Ok::<(), fowlyore::Refused>(())
    /// ```
    ///
    /// # Panics
    ///
    /// If both trees have more nodes than `Bounds::default()` ([`within`](MarkerTree::within) returns that).
    #[must_use]
    pub fn implies(&self, other: &MarkerTree) -> bool {
        self.within(Bounds::default()).implies(other).expect(IS_FEW)
    }

    /// The conjunction: a marker that holds where both do. Its text is the two texts with `and` between them,
    /// each in brackets unless it was joined by `and` already, so that a chain of any length nests no deeper
    /// than its parts. Makes no print and no key, but the decision tree of each part that wasn't joined by these
    /// calls, once and no further than `Bounds::default()`: whether it always holds has to be known.
    ///
    /// The brackets of a marker may be nested 256 deep. Where they would be deeper, as they may be when `and`
    /// and `or` alternate, the [`normal`](MarkerTree::normal) texts are joined, at their cost.
    ///
    /// ```
    /// use fowlyore::MarkerTree;
    ///
    /// let markers: Vec<MarkerTree> = vec!["os_name == 'nt'".parse()?, "extra == 'a' or extra == 'b'".parse()?];
    /// let all = markers.iter().try_fold(MarkerTree::default(), |all, it| all.and(it))?;
    /// assert_eq!(all.to_string(), "(os_name == 'nt' and extra == 'a') or (os_name == 'nt' and extra == 'b')");
    /// # Ok::<(), fowlyore::Refused>(())
    /// ```
    ///
    /// # Errors
    ///
    /// `Refused` if a part is nested too deep and has no normal text within `Bounds::default()`.
    pub fn and(&self, other: &MarkerTree) -> Result<MarkerTree, Refused> {
        match (self.is_left_out(), other.is_left_out()) {
            (true, _) => Ok(other.clone()),
            (_, true) => Ok(self.clone()),
            _ => self.joined(Connective::And, other),
        }
    }

    /// The disjunction: a marker that holds where one of the two does. Its text is made as by
    /// [`and`](MarkerTree::and).
    ///
    /// ```
    /// use fowlyore::MarkerTree;
    ///
    /// let windows: MarkerTree = "os_name == 'nt'".parse()?;
    /// assert_eq!(windows.or(&"os_name == 'posix'".parse()?)?, "os_name == 'posix' or os_name == 'nt'".parse()?);
    /// assert_eq!(windows.or(&MarkerTree::never())?, windows);
    /// # Ok::<(), fowlyore::Refused>(())
    /// ```
    ///
    /// # Errors
    ///
    /// `Refused` if a part is nested too deep and has no normal text within `Bounds::default()`.
    pub fn or(&self, other: &MarkerTree) -> Result<MarkerTree, Refused> {
        if self.is_left_out() || other.is_left_out() {
            return Ok(MarkerTree::default());
        }
        self.joined(Connective::Or, other)
    }

    /// The negation: the marker that holds where this one doesn't, with the normal text of that.
    ///
    /// ```
    /// use fowlyore::MarkerTree;
    ///
    /// let marker: MarkerTree = "python_version >= '3.8' and os_name == 'nt'".parse()?;
    /// assert_eq!(marker.negate()?, "python_version < '3.8' or os_name != 'nt'".parse()?);
    /// assert_eq!(MarkerTree::default().negate()?, MarkerTree::never());
    /// assert!("os.name == 'nt'".parse::<MarkerTree>()?.negate().is_err());
    /// # Ok::<(), fowlyore::Refused>(())
    /// ```
    ///
    /// # Errors
    ///
    /// `Refused` if the negation has no [`normal`](MarkerTree::normal) text, except if it never holds, and
    /// beyond `Bounds::default()`.
    pub fn negate(&self) -> Result<MarkerTree, Refused> {
        self.within(Bounds::default()).negate()
    }

    /// A marker that holds as this one does in each environment whose `python_full_version` is at least
    /// `lower` and below `upper`, and tests `python_full_version` no more than that needs. `None` is no bound
    /// on that side.
    ///
    /// ```
    /// use fowlyore::MarkerTree;
    ///
    /// let marker: MarkerTree = "python_version >= '3.8' and python_version < '3.12' and os_name == 'nt'".parse()?;
    /// let (lower, upper) = ("3.9".parse()?, "3.12".parse()?);
    /// let simple = marker.simplify_python_versions(Some(&lower), Some(&upper))?;
    /// assert_eq!(simple, "os_name == 'nt'".parse()?);
    /// let simple = marker.simplify_python_versions(Some(&lower), None)?;
    /// assert_eq!(simple, "python_version < '3.12' and os_name == 'nt'".parse()?);
    /// assert_eq!(marker.simplify_python_versions(Some(&upper), None)?, MarkerTree::never());
    /// # Ok::<(), fowlyore::Refused>(())
    /// ```
    ///
    /// # Errors
    ///
    /// `Refused` if it has no [`normal`](MarkerTree::normal) text, except if it never holds, and beyond
    /// `Bounds::default()`.
    pub fn simplify_python_versions(
        &self,
        lower: Option<&Version>,
        upper: Option<&Version>,
    ) -> Result<MarkerTree, Refused> {
        let bounded = self.within(Bounds::default());
        bounded.simplify_python_versions(lower, upper)
    }

    /// The marker under the assumption that these extras are present, so that it doesn't test them.
    ///
    /// ```
    /// use fowlyore::MarkerTree;
    ///
    /// let marker: MarkerTree = "extra == 'socks' and os_name == 'nt' or extra == 'test'".parse()?;
    /// assert_eq!(marker.simplify_extras(&["Socks"])?, "os_name == 'nt' or extra == 'test'".parse()?);
    /// assert_eq!(marker.simplify_extras(&["test"])?, MarkerTree::default());
    /// assert_eq!(marker.simplify_extras(&["no name!"]).unwrap_err().input, 2);
    /// # Ok::<(), fowlyore::Refused>(())
    /// ```
    ///
    /// # Errors
    ///
    /// `Refused` for an extra that is not a name, for a marker without a [`normal`](MarkerTree::normal) text,
    /// except if it never holds, and beyond `Bounds::default()`.
    pub fn simplify_extras(&self, extras: &[&str]) -> Result<MarkerTree, Refused> {
        self.within(Bounds::default()).simplify_extras(extras)
    }

    /// Whether it holds in an environment, which is JSON as for [`check`](crate::check), with extras. A marker
    /// that always holds does so whatever the environment and the extras are, even if they are invalid. For them
    /// alone a decision tree is made, once and no further than `Bounds::default()`: where it isn't found out
    /// within that, the marker is refused for them.
    ///
    /// On a pre-release of Python give the release as `python_full_version` ([`check`](crate::check)).
    ///
    /// ```
    /// use fowlyore::{MarkerTree, Requirement};
    ///
    /// let environment = r#"{"implementation_name": "cpython", "implementation_version": "3.11.7", "os_name": "posix",
    ///     "platform_machine": "x86_64", "platform_python_implementation": "CPython", "platform_release": "6.1",
    ///     "platform_system": "Linux", "platform_version": "it's", "python_full_version": "3.11.7",
    ///     "python_version": "3.11", "sys_platform": "linux"}"#;
    /// let marker: MarkerTree = "python_version >= '3.8' and extra == 'socks'".parse()?;
    /// assert_eq!((marker.evaluate(environment, &["Socks"])?, marker.evaluate(environment, &[])?), (true, false));
    /// let refused = marker.evaluate(environment, &["a\nsocks"]).unwrap_err();
    /// assert_eq!((refused.message.as_str(), refused.input), ("extra a\nsocks is no name", 3));
    /// assert!(MarkerTree::default().evaluate("", &[""])?);
    /// assert!("os_name == 'a' or os_name != 'a'".parse::<MarkerTree>()?.evaluate("", &[""])?);
    /// let line: Requirement = "foo @ https://example.org/;x ; platform_version == \"it's\"".parse()?;
    /// assert!(line.marker.evaluate(environment, &[])?);
    /// assert!("os_name ==\n'posix'".parse::<MarkerTree>().is_err());
    /// # Ok::<(), fowlyore::Refused>(())
    /// ```
    ///
    /// # Errors
    ///
    /// `Refused` for an extra that is not a name, and for an invalid environment.
    pub fn evaluate(&self, environment: &str, extras: &[&str]) -> Result<bool, Refused> {
        if self.text.is_empty() {
            return Ok(true);
        }
        match native::markers_hold(&self.text, environment, extras) {
            Ok(mark) => Ok(mark == "1"),
            Err(_) if self.is_known_true() => Ok(true),
            Err(refused) => Err(refused),
        }
    }

    /// A text of this meaning that the library reads.
    pub(crate) fn readable(&self) -> &str {
        if self.text.is_empty() {
            ALWAYS
        } else {
            &self.text
        }
    }

    fn truth(&self) -> u8 {
        self.truth_within(Bounds::default().nodes).expect(IS_FEW)
    }

    /// When it holds, or that its tree has more nodes.
    fn truth_within(&self, nodes: usize) -> Result<u8, Refused> {
        if self.text.is_empty() {
            return Ok(ALWAYS_HOLDS);
        }
        let known = self.truth.load(MemoryOrdering::Relaxed);
        if known != UNKNOWN && known != BEYOND {
            return Ok(known);
        }
        let truth = native::marker_truth(&self.text, nodes)?;
        self.truth.store(truth, MemoryOrdering::Relaxed);
        Ok(truth)
    }

    pub(crate) fn is_always(&self, nodes: usize) -> Result<bool, Refused> {
        Ok(self.truth_within(nodes)? == ALWAYS_HOLDS)
    }

    pub(crate) fn is_never(&self, nodes: usize) -> Result<bool, Refused> {
        Ok(self.truth_within(nodes)? == NEVER_HOLDS)
    }

    /// The key, which is kept, with when it holds.
    pub(crate) fn key_of(&self, nodes: usize) -> Result<&[u8], Refused> {
        self.truth_within(nodes)?;
        let make = || native::marker_key(self.readable(), nodes);
        self.key.get_or_try_make(make)
    }

    /// Whether it is found within `Bounds::default()` that it always holds. That is looked for once.
    fn is_known_true(&self) -> bool {
        if self.truth.load(MemoryOrdering::Relaxed) == BEYOND {
            return false;
        }
        self.is_always(Bounds::default().nodes).unwrap_or_else(|_| {
            // (another thread may know more by now, from within other bounds)
            let _ = self.truth.compare_exchange(
                UNKNOWN,
                BEYOND,
                MemoryOrdering::Relaxed,
                MemoryOrdering::Relaxed,
            );
            false
        })
    }

    /// What markers are compared by: all markers that always hold are equal, as are all that never do.
    fn place(&self) -> (u8, &[u8]) {
        match self.truth() {
            truth @ (ALWAYS_HOLDS | NEVER_HOLDS) => (truth, &[]),
            truth => (truth, self.key()),
        }
    }

    /// Whether it may be a comparison that means nothing, as `'a' == 'b'`: such a marker always holds, but
    /// within another text it is ignored by `or` too. A marker that was joined here means something, and so
    /// does one whose tree has too many nodes.
    fn is_left_out(&self) -> bool {
        self.joined.is_none() && self.is_known_true()
    }

    /// The joined texts, or the joined normal texts if the brackets of the others are nested too deep.
    fn joined(&self, by: Connective, other: &MarkerTree) -> Result<MarkerTree, Refused> {
        self.chained(by, other).or_else(|refused| {
            let (left, right) = (self.flat(), other.flat());
            left.chained(by, &right).map_err(|_| refused)
        })
    }

    fn chained(&self, by: Connective, other: &MarkerTree) -> Result<MarkerTree, Refused> {
        let text = format!("{} {} {}", self.piece(by), by.as_str(), other.piece(by));
        let brackets = self.brackets_in(by).max(other.brackets_in(by));
        if brackets > MOST_BRACKETS {
            native::marker_check(&text)?;
        }
        Ok(MarkerTree {
            joined: Some(by),
            brackets: brackets.min(MOST_BRACKETS),
            ..MarkerTree::given(&text, UNKNOWN)
        })
    }

    /// The marker of the normal text if it has one, and otherwise the marker itself. It means something.
    fn flat(&self) -> MarkerTree {
        let flat = MarkerTree::of_normal(self.normal()).unwrap_or_else(|_| self.clone());
        if flat.text.is_empty() {
            return MarkerTree::given(ALWAYS, ALWAYS_HOLDS);
        }
        flat
    }

    /// The text as a part of a chain.
    fn piece(&self, by: Connective) -> String {
        if self.joined == Some(by) {
            self.text.to_string()
        } else {
            format!("({})", self.text)
        }
    }

    /// The greatest depth of the brackets in the part.
    fn brackets_in(&self, by: Connective) -> usize {
        self.brackets + usize::from(self.joined != Some(by))
    }
}

impl Connective {
    fn as_str(self) -> &'static str {
        match self {
            Connective::And => "and",
            Connective::Or => "or",
        }
    }
}

impl Clone for MarkerTree {
    fn clone(&self) -> MarkerTree {
        // (before when it holds, which another thread may make now: a key isn't without it)
        let key = self.key.clone();
        MarkerTree {
            text: self.text.clone(),
            joined: self.joined,
            brackets: self.brackets,
            truth: AtomicU8::new(self.truth.load(MemoryOrdering::Relaxed)),
            key,
        }
    }
}

impl FromStr for MarkerTree {
    type Err = Refused;

    fn from_str(text: &str) -> Result<MarkerTree, Refused> {
        on_one_line(text)?;
        native::marker_check(text)?;
        Ok(MarkerTree::given(text.trim(), UNKNOWN))
    }
}

impl fmt::Debug for MarkerTree {
    fn fmt(&self, f: &mut fmt::Formatter<'_>) -> fmt::Result {
        f.debug_tuple("MarkerTree").field(&self.text).finish()
    }
}

/// Prints the [`normal`](MarkerTree::normal) text, at the cost that is stated there, or the given text if
/// there is no normal one. The print is read again as an equal marker, unless the marker always holds: then
/// nothing is printed, and the marker is written by omitting it (as `try_to_string` of the crate `pep508_rs`
/// returns `None` for it).
///
/// ```
/// use fowlyore::MarkerTree;
///
/// let printed = |text: &str| text.parse::<MarkerTree>().map(|it| it.to_string());
/// assert_eq!(printed("python_version > '3.7'")?, "python_full_version >= '3.8'");
/// assert_eq!(printed("os_name == \"it's\"")?, "os_name == \"it's\"");
/// assert_eq!(printed("os_name == 'nt' or os_name != 'nt'")?, "");
/// assert!("".parse::<MarkerTree>().is_err());
/// # Ok::<(), fowlyore::Refused>(())
/// ```
impl fmt::Display for MarkerTree {
    fn fmt(&self, f: &mut fmt::Formatter<'_>) -> fmt::Result {
        match self.normal() {
            Ok(text) => f.pad(&text),
            Err(_) => f.pad(&self.text),
        }
    }
}

impl PartialEq for MarkerTree {
    fn eq(&self, other: &MarkerTree) -> bool {
        self.cmp(other).is_eq()
    }
}

impl Eq for MarkerTree {}

impl PartialOrd for MarkerTree {
    fn partial_cmp(&self, other: &MarkerTree) -> Option<Ordering> {
        Some(self.cmp(other))
    }
}

impl Ord for MarkerTree {
    fn cmp(&self, other: &MarkerTree) -> Ordering {
        if self.text == other.text {
            return Ordering::Equal;
        }
        self.place().cmp(&other.place())
    }
}

impl Hash for MarkerTree {
    fn hash<H: Hasher>(&self, state: &mut H) {
        self.place().hash(state);
    }
}

#[cfg(test)]
mod tests {
    use super::*;

    #[test]
    fn a_tree_beyond_the_bound_is_made_once() {
        let pair = |it: usize| format!("extra == 'a{it}' and extra == 'b{it}'");
        let hostile = (10..40).map(pair).collect::<Vec<_>>().join(" or ");
        let (hostile, other): (MarkerTree, MarkerTree) =
            (hostile.parse().unwrap(), "os_name == 'a'".parse().unwrap());
        let truth = |it: &MarkerTree| it.truth.load(MemoryOrdering::Relaxed);
        assert_eq!((truth(&hostile), truth(&other)), (UNKNOWN, UNKNOWN));
        let joined = hostile.and(&other).unwrap();
        assert_eq!((truth(&hostile), truth(&joined)), (BEYOND, UNKNOWN));
        assert_eq!(truth(&hostile.clone()), BEYOND);
        assert!(joined.as_given().ends_with(" and (os_name == 'a')"));
        assert!(hostile.within(Bounds::default()).is_true().is_err());
        assert_eq!(truth(&hostile), BEYOND);
    }

    #[test]
    fn what_is_beyond_the_bound_is_known_within_another() {
        for (text, wanted) in [
            ("os_name == 'a' or os_name != 'a'", ALWAYS_HOLDS),
            (NEVER, NEVER_HOLDS),
        ] {
            let marker = MarkerTree::given(text, BEYOND);
            assert!(!marker.is_known_true());
            assert_eq!(marker.truth_within(usize::MAX), Ok(wanted));
            assert_eq!(marker.truth.load(MemoryOrdering::Relaxed), wanted);
            assert_eq!(marker.is_known_true(), wanted == ALWAYS_HOLDS);
        }
    }
}
