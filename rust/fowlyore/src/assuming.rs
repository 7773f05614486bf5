//! Lists of requirements where a marker holds.

use crate::lists::{conflicts_of, related};
use crate::native::{self, Format};
use crate::{Bounds, Conflict, Covers, MarkerTree, Refused, Same, VersionSpecifiers};

/// A marker that is assumed, with the bounds of the calls on lists, made by [`Bounds::assuming`]. Each call is the
/// function of its name, but only the environments and extras count for which the marker holds, as if each line's
/// marker were joined with it by `and`. One that always holds changes nothing; where none ever does, lists require
/// nothing.
///
/// ```
/// use fowlyore::{Bounds, MarkerTree, Same, LIMIT};
///
/// let windows: MarkerTree = "sys_platform == 'win32'".parse()?;
/// let on_windows = Bounds::default().assuming(&windows);
/// let list = b"foo ; os_name == 'nt' and sys_platform == 'win32'\n";
/// assert_eq!(on_windows.same(b"foo ; os_name == 'nt'\n", list, LIMIT)?, Same::Yes);
/// # Ok::<(), fowlyore::Refused>(())
/// ```
#[derive(Clone, Copy, Debug)]
pub struct Assuming<'a> {
    bounds: Bounds,
    marker: &'a MarkerTree,
}

impl MarkerTree {
    /// The marker that holds where all that is assumed does, as the options `--assume`, `--python` and `--assume-real`
    /// of `reqs` join it: a marker; specifiers that accept `python_full_version`; and, if `real`, that `os_name`,
    /// `sys_platform` and `platform_system` say together that it is Windows, Linux or macOS, or none of them says so, as
    /// in `CPython`, `PyPy` and `GraalPy`. It always holds if nothing is assumed.
    ///
    /// ```
    /// use fowlyore::{Bounds, MarkerTree, LIMIT};
    ///
    /// let real = MarkerTree::assumption(None, Some(&">=3.9,<3.13".parse()?), true)?;
    /// let list = b"foo>=2 ; sys_platform == 'win32'\nfoo<2 ; os_name == 'posix'\n\
    ///     bar>=2 ; python_version < '3.9'\nbar<2\n";
    /// assert_eq!(Bounds::default().conflicts(list, LIMIT)?.len(), 2);
    /// assert_eq!(Bounds::default().assuming(&real).conflicts(list, LIMIT)?, []);
    /// # Ok::<(), fowlyore::Refused>(())
    /// ```
    ///
    /// # Errors
    ///
    /// `Refused` for a specifier with `===`, which no marker has.
    pub fn assumption(
        marker: Option<&MarkerTree>,
        python: Option<&VersionSpecifiers>,
        real: bool,
    ) -> Result<MarkerTree, Refused> {
        let marker = marker.map_or("", MarkerTree::as_given);
        let python = python.map_or_else(String::new, VersionSpecifiers::to_string);
        let text = native::assumption(marker, &python, real)?;
        if text.is_empty() {
            return Ok(MarkerTree::default());
        }
        text.parse()
    }
}

impl Bounds {
    /// The calls on lists within these bounds where a marker holds. Its tree counts among the nodes.
    #[must_use]
    pub fn assuming(self, marker: &MarkerTree) -> Assuming<'_> {
        Assuming {
            bounds: self,
            marker,
        }
    }
}

impl Assuming<'_> {
    /// Whether two lists require the same where the marker holds, as [`same`](crate::same) says it. The marker of a
    /// difference holds nowhere else.
    ///
    /// ```
    /// use fowlyore::{Bounds, MarkerTree, Same, LIMIT};
    ///
    /// let gui: MarkerTree = "extra == 'gui'".parse()?;
    /// let no = Same::No { package: "foo".into(), marker: Some("extra == 'gui'".into()) };
    /// assert_eq!(Bounds::default().assuming(&gui).same(b"foo>=1\n", b"foo>=2\n", LIMIT)?, no);
    /// # Ok::<(), fowlyore::Refused>(())
    /// ```
    ///
    /// # Errors
    ///
    /// As those of [`same`](crate::same), beyond the bounds.
    pub fn same(self, left: &[u8], right: &[u8], limit: u64) -> Result<Same, Refused> {
        let text = self.marker.readable();
        let answer = native::same_where([left, right], text, limit, self.bounds, Format::Text)?;
        Ok(related(answer, Same::Yes))
    }

    /// The answer of `same` as JSON, as [`same_json`](crate::same_json) has it.
    ///
    /// # Errors
    ///
    /// As those of [`same`](crate::same), beyond the bounds.
    pub fn same_json(self, left: &[u8], right: &[u8], limit: u64) -> Result<String, Refused> {
        let text = self.marker.readable();
        let answer = native::same_where([left, right], text, limit, self.bounds, Format::Json);
        answer.map(native::Answer::text)
    }

    /// Whether a lock covers requirements where the marker holds, as [`covers`](crate::covers) says it.
    ///
    /// ```
    /// use fowlyore::{Bounds, Covers, MarkerTree, LIMIT};
    ///
    /// let (lock, list) = (b"foo==1.2 ; os_name == 'nt'\n", b"foo>=1\n");
    /// let covers = |marker: MarkerTree| Bounds::default().assuming(&marker).covers(lock, list, LIMIT);
    /// assert_eq!(covers("os_name == 'nt'".parse()?)?, Covers::Yes);
    /// let marker = Some("os_name == 'posix'".into());
    /// let no = Covers::No { package: "foo".into(), marker, lines: vec![1] };
    /// assert_eq!(covers("os_name == 'nt' or os_name == 'posix'".parse()?)?, no);
    /// # Ok::<(), fowlyore::Refused>(())
    /// ```
    ///
    /// # Errors
    ///
    /// As those of [`covers`](crate::covers), beyond the bounds.
    pub fn covers(self, lock: &[u8], requirements: &[u8], limit: u64) -> Result<Covers, Refused> {
        let (lists, text) = ([lock, requirements], self.marker.readable());
        let answer = native::covers_where(lists, text, limit, self.bounds, Format::Text)?;
        Ok(related(answer, Covers::Yes))
    }

    /// The answer of `covers` as JSON, as [`covers_json`](crate::covers_json) has it.
    ///
    /// # Errors
    ///
    /// As those of [`covers`](crate::covers), beyond the bounds.
    pub fn covers_json(
        self,
        lock: &[u8],
        requirements: &[u8],
        limit: u64,
    ) -> Result<String, Refused> {
        let (lists, text) = ([lock, requirements], self.marker.readable());
        let answer = native::covers_where(lists, text, limit, self.bounds, Format::Json);
        answer.map(native::Answer::text)
    }

    /// The cases of packages whose lines contradict each other and apply together somewhere where the marker holds, as
    /// [`conflicts`](crate::conflicts) says them.
    ///
    /// ```
    /// use fowlyore::{Bounds, MarkerTree, LIMIT};
    ///
    /// let list = b"foo>=2 ; sys_platform == 'win32'\nfoo<2 ; os_name == 'posix'\n";
    /// let real: MarkerTree = "os_name == 'nt' and sys_platform == 'win32' \
    ///     or os_name == 'posix' and sys_platform != 'win32'".parse()?;
    /// assert_eq!(Bounds::default().conflicts(list, LIMIT)?.len(), 1);
    /// assert_eq!(Bounds::default().assuming(&real).conflicts(list, LIMIT)?, []);
    /// # Ok::<(), fowlyore::Refused>(())
    /// ```
    ///
    /// # Errors
    ///
    /// As those of [`conflicts`](crate::conflicts), beyond the bounds.
    pub fn conflicts(self, requirements: &[u8], limit: u64) -> Result<Vec<Conflict>, Refused> {
        self.conflicts_text(requirements, limit)
            .map(|it| conflicts_of(&it))
    }

    /// The answer of `conflicts` as text, as [`conflicts_text`](crate::conflicts_text) has it.
    ///
    /// # Errors
    ///
    /// As those of [`conflicts`](crate::conflicts), beyond the bounds.
    pub fn conflicts_text(self, requirements: &[u8], limit: u64) -> Result<String, Refused> {
        let text = self.marker.readable();
        native::conflicts_where(requirements, text, limit, self.bounds, Format::Text)
    }

    /// The answer of `conflicts` as JSON, as [`conflicts_json`](crate::conflicts_json) has it.
    ///
    /// # Errors
    ///
    /// As those of [`conflicts`](crate::conflicts), beyond the bounds.
    pub fn conflicts_json(self, requirements: &[u8], limit: u64) -> Result<String, Refused> {
        let text = self.marker.readable();
        native::conflicts_where(requirements, text, limit, self.bounds, Format::Json)
    }
}
