//! Lists of requirements: the six commands of the program `reqs`, over texts, within the usual bounds or others.

use crate::elements::elements;
use crate::native::{self, Format};
use crate::{grammar, Bounds, Conflict, Covers, Refused, Row, Same};
use std::str::FromStr;

/// The default limit on the cases of a package. What has more is refused
/// ([`is_of_limit`](Refused::is_of_limit)).
pub const LIMIT: u64 = 4096;

/// For each required package, by name, its extras and the highest candidate that all applicable lines accept.
///
/// `requirements` has one per line, `candidates` a name and a version per line; `environment` is a JSON object.
///
/// Markers compare `python_version` by the environment's `python_full_version`, and 3.14.0rc1 is below 3.14: on a
/// pre-release of Python give the release, 3.14.0, or `python_version >= '3.14'` doesn't hold there.
///
/// ```
/// use fowlyore::{check, check_text, Outcome};
///
/// let environment = br#"{"implementation_name": "cpython", "implementation_version": "3.11.7", "os_name": "posix",
///     "platform_machine": "x86_64", "platform_python_implementation": "CPython", "platform_release": "6.1",
///     "platform_system": "Linux", "platform_version": "", "python_full_version": "3.11.7",
///     "python_version": "3.11", "sys_platform": "linux"}"#;
/// let (requirements, candidates) = (b"foo[bar]>=1,<2\nbaz\n", b"foo 1.0\nfoo 1.5\nfoo 2.0\n");
/// let rows = check(requirements, environment, candidates, &[])?;
/// assert_eq!((rows[0].package.as_str(), &rows[0].outcome), ("baz", &Outcome::None));
/// assert_eq!((rows[1].extras[0].as_str(), &rows[1].outcome), ("bar", &Outcome::Version("1.5".parse()?)));
/// assert_eq!(check_text(requirements, environment, candidates, &[])?, "baz none\nfoo[bar] 1.5\n");
/// assert!(check(b"foo\n", environment, b"foo 1.0\n", &["dev\ntest"]).is_err());
/// # Ok::<(), fowlyore::Refused>(())
/// ```
///
/// # Errors
///
/// `Refused` for an extra that is not a name, and for an invalid text.
pub fn check(
    requirements: &[u8],
    environment: &[u8],
    candidates: &[u8],
    extras: &[&str],
) -> Result<Vec<Row>, Refused> {
    check_text(requirements, environment, candidates, extras).map(|it| rows_of(&it))
}

/// The rows of [`check`] as `reqs check` prints them.
///
/// # Errors
///
/// As those of [`check`].
pub fn check_text(
    requirements: &[u8],
    environment: &[u8],
    candidates: &[u8],
    extras: &[&str],
) -> Result<String, Refused> {
    let lists = [requirements, environment, candidates];
    native::check(lists, extras, Format::Text)
}

/// The rows of [`check`] as the JSON that `reqs check --format json` prints: an object on one line, whose
/// `packages` are objects with the `extras`, the `name`, the `outcome` (`"none"`, `"direct"` or `"version"`)
/// and the `version`, which is null unless it is the outcome.
///
/// ```
/// let environment = br#"{"implementation_name": "cpython", "implementation_version": "3.11.7", "os_name": "posix",
///     "platform_machine": "x86_64", "platform_python_implementation": "CPython", "platform_release": "6.1",
///     "platform_system": "Linux", "platform_version": "", "python_full_version": "3.11.7",
///     "python_version": "3.11", "sys_platform": "linux"}"#;
/// let json = fowlyore::check_json(b"foo[bar]>=1\n", environment, b"foo 1.5\n", &[])?;
/// let row = r#"{"extras":["bar"],"name":"foo","outcome":"version","version":"1.5"}"#;
/// assert_eq!(json, format!("{{\"packages\":[{row}]}}\n"));
/// # Ok::<(), fowlyore::Refused>(())
/// ```
///
/// # Errors
///
/// As those of [`check`].
pub fn check_json(
    requirements: &[u8],
    environment: &[u8],
    candidates: &[u8],
    extras: &[&str],
) -> Result<String, Refused> {
    let lists = [requirements, environment, candidates];
    native::check(lists, extras, Format::Json)
}

/// The rows of [`check`] for each environment of a JSON list. They are read off one table, in which no
/// package may have more cases than `limit`; where rows of a package `env` may be mistaken for the numbers of
/// environments in the table's print, each environment is checked by itself.
///
/// ```
/// use fowlyore::{matrix, matrix_text, LIMIT};
///
/// let environment = |system: &str| {
///     format!(
///         r#"{{"implementation_name": "cpython", "implementation_version": "3.11.7", "os_name": "posix",
///         "platform_machine": "x86_64", "platform_python_implementation": "CPython", "platform_release": "6.1",
///         "platform_system": "", "platform_version": "", "python_full_version": "3.11.7",
///         "python_version": "3.11", "sys_platform": "{system}"}}"#
///     )
/// };
/// let environments = format!("[{}, {}]", environment("linux"), environment("win32")).into_bytes();
/// let requirements = b"foo>=1,<2\nbar ; sys_platform == 'win32' and extra == 'dev'\n";
/// let candidates = b"foo 1.5\nfoo 2.0\nbar 3.0\n";
/// let rows = matrix(requirements, &environments, candidates, &["dev"], LIMIT)?;
/// assert_eq!(rows[0], ["foo 1.5".parse()?]);
/// assert_eq!(rows[1], ["bar 3.0".parse()?, "foo 1.5".parse()?]);
/// let text = matrix_text(requirements, &environments, candidates, &["dev"], LIMIT)?;
/// assert_eq!(text, "env 1\nfoo 1.5\nenv 2\nbar 3.0\nfoo 1.5\n");
/// let refused = matrix(requirements, &environments, candidates, &["dev"], 1).unwrap_err();
/// assert_eq!(refused.message, "requirements: more than 1 cases for bar");
/// # Ok::<(), fowlyore::Refused>(())
/// ```
///
/// # Errors
///
/// `Refused` for an extra that is not a name, for an invalid text, for the first package by name with too many
/// cases, and beyond [`Bounds::default`].
pub fn matrix(
    requirements: &[u8],
    environments: &[u8],
    candidates: &[u8],
    extras: &[&str],
    limit: u64,
) -> Result<Vec<Vec<Row>>, Refused> {
    Bounds::default().matrix(requirements, environments, candidates, extras, limit)
}

/// What `reqs matrix` prints: for each environment a line `env` with its number, from 1, and then the rows of
/// [`check`]. A row of a package `env` may look like such a line; [`matrix`] tells them apart.
///
/// # Errors
///
/// As those of [`matrix`].
pub fn matrix_text(
    requirements: &[u8],
    environments: &[u8],
    candidates: &[u8],
    extras: &[&str],
    limit: u64,
) -> Result<String, Refused> {
    Bounds::default().matrix_text(requirements, environments, candidates, extras, limit)
}

/// The rows of [`matrix`] as the JSON that `reqs matrix --format json` prints: an object on one line, whose
/// `environments` are objects with the `number` of each, from 1, and the `packages` of [`check_json`].
///
/// ```
/// use fowlyore::{matrix_json, LIMIT};
///
/// let environments = br#"[{"implementation_name": "cpython", "implementation_version": "3.11.7", "os_name": "posix",
///     "platform_machine": "x86_64", "platform_python_implementation": "CPython", "platform_release": "6.1",
///     "platform_system": "Linux", "platform_version": "", "python_full_version": "3.11.7",
///     "python_version": "3.11", "sys_platform": "linux"}]"#;
/// let json = matrix_json(b"foo>=1\n", environments, b"foo 0.5\n", &[], LIMIT)?;
/// let row = r#"{"extras":[],"name":"foo","outcome":"none","version":null}"#;
/// assert_eq!(json, format!("{{\"environments\":[{{\"number\":1,\"packages\":[{row}]}}]}}\n"));
/// # Ok::<(), fowlyore::Refused>(())
/// ```
///
/// # Errors
///
/// As those of [`matrix`].
pub fn matrix_json(
    requirements: &[u8],
    environments: &[u8],
    candidates: &[u8],
    extras: &[&str],
    limit: u64,
) -> Result<String, Refused> {
    Bounds::default().matrix_json(requirements, environments, candidates, extras, limit)
}

fn rows_of(text: &str) -> Vec<Row> {
    lines_of(text).map(Row::of_printed).collect()
}

fn lines_of(text: &str) -> std::str::SplitTerminator<'_, char> {
    grammar::lines(text).expect("the library prints whole lines")
}

/// The conflicts that the library prints.
pub(crate) fn conflicts_of(text: &str) -> Vec<Conflict> {
    let conflict = |it: &str| it.parse().expect("the library prints conflicts");
    lines_of(text).map(conflict).collect()
}

/// What the library answers of two lists: yes, or what it prints of the first package and place where not.
pub(crate) fn related<Answer: FromStr<Err = Refused>>(
    answer: native::Answer,
    yes: Answer,
) -> Answer {
    if !answer.is_different {
        return yes;
    }
    let text = answer.text();
    let printed = text.strip_suffix('\n').unwrap_or(&text);
    printed
        .parse()
        .expect("the library prints a package and a place")
}

/// Whether two lists require the same of each package: whether it is required, its extras, its version range,
/// and whether a specifier names a pre-release. Ranges decide only plain versions, those without a local part
/// that are no post-releases. So of two lists that require the same, [`check`] can still select different
/// builds: as of `torch==2.0+cu118` with `torch<=2.0`, and `torch==2.0+cu121` with `torch<=2.0`.
///
/// ```
/// use fowlyore::{same, Same, LIMIT};
///
/// assert_eq!(same(b"foo>=1,<2\n", b"Foo<2.0\nfoo>=1\n", LIMIT)?, Same::Yes);
/// let no = Same::No { package: "bar".into(), marker: Some("sys_platform == 'win32'".into()) };
/// assert_eq!(same(b"foo\n", b"foo\nbar ; sys_platform == 'win32'\n", LIMIT)?, no);
/// # Ok::<(), fowlyore::Refused>(())
/// ```
///
/// # Errors
///
/// `Refused` for an invalid list, then for the first line that can't be compared, and then for the first
/// package by name with more cases than `limit`, of the left list first; and beyond [`Bounds::default`].
pub fn same(left: &[u8], right: &[u8], limit: u64) -> Result<Same, Refused> {
    Bounds::default().same(left, right, limit)
}

/// The answer of [`same`] as the JSON that `reqs same --format json` prints: an object on one line. Its
/// `same` is true, or it is false and the object has the `package` and the `marker`, which is null if the
/// difference is everywhere.
///
/// ```
/// use fowlyore::{same_json, LIMIT};
///
/// assert_eq!(same_json(b"foo>=1,<2\n", b"Foo<2.0\nfoo>=1\n", LIMIT)?, "{\"same\":true}\n");
/// let json = same_json(b"foo\n", b"foo\nbar ; sys_platform == 'win32'\n", LIMIT)?;
/// let no = r#"{"marker":"sys_platform == 'win32'","package":"bar","same":false}"#;
/// assert_eq!(json, format!("{no}\n"));
/// # Ok::<(), fowlyore::Refused>(())
/// ```
///
/// # Errors
///
/// As those of [`same`].
pub fn same_json(left: &[u8], right: &[u8], limit: u64) -> Result<String, Refused> {
    Bounds::default().same_json(left, right, limit)
}

/// Whether a lock requires whatever requirements do, whatever the truth of their markers is: each package, with
/// at least their extras, and only points of versions that all their ranges have: `torch==2.0+cu118` doesn't
/// cover `torch==2.0`, whose range has no point with a local part. What the lock alone requires makes no
/// difference, and neither does whether a specifier names a pre-release.
///
/// ```
/// use fowlyore::{covers, Covers, LIMIT};
///
/// assert_eq!(covers(b"foo[a,b]==1.2\nbar==1\n", b"foo[b]>=1\n", LIMIT)?, Covers::Yes);
/// let marker = Some("os_name != 'nt'".into());
/// let no = Covers::No { package: "foo".into(), marker, lines: vec![1] };
/// assert_eq!(covers(b"foo==1.2 ; os_name == 'nt'\n", b"foo>=1\n", LIMIT)?, no);
/// # Ok::<(), fowlyore::Refused>(())
/// ```
///
/// # Errors
///
/// `Refused` for an invalid list, then for the first line that can't be compared, as one with a URL or with
/// `===`, and then for the first package by name with more cases than `limit`, of the lock first; and beyond
/// [`Bounds::default`].
pub fn covers(lock: &[u8], requirements: &[u8], limit: u64) -> Result<Covers, Refused> {
    Bounds::default().covers(lock, requirements, limit)
}

/// The answer of [`covers`] as the JSON that `reqs covers --format json` prints: an object on one line. Its
/// `covers` is true, or it is false and the object has the `package`, the `marker`, which is null if the place
/// is everywhere, and the numbers of the `lines`.
///
/// ```
/// use fowlyore::{covers_json, LIMIT};
///
/// assert_eq!(covers_json(b"foo==1.2\n", b"foo>=1\n", LIMIT)?, "{\"covers\":true}\n");
/// let json = covers_json(b"foo==1.2\n", b"foo>=1\nbar ; os_name == 'nt'\n", LIMIT)?;
/// let no = r#"{"covers":false,"lines":[2],"marker":"os_name == 'nt'","package":"bar"}"#;
/// assert_eq!(json, format!("{no}\n"));
/// # Ok::<(), fowlyore::Refused>(())
/// ```
///
/// # Errors
///
/// As those of [`covers`].
pub fn covers_json(lock: &[u8], requirements: &[u8], limit: u64) -> Result<String, Refused> {
    Bounds::default().covers_json(lock, requirements, limit)
}

/// The cases of packages whose lines contradict each other: no plain version, one without a local part that
/// is no post-release, is accepted by all of them. Other versions may be: the lines `torch==2.0+cu118` and
/// `torch<=2.0` are a conflict, and both accept 2.0+cu118.
///
/// ```
/// use fowlyore::{conflicts, conflicts_text, LIMIT};
///
/// let found = conflicts(b"foo>=2\nbar\nfoo<1\n", LIMIT)?;
/// assert_eq!((found[0].package.as_str(), found[0].lines.as_slice()), ("foo", &[1, 3][..]));
/// assert!(!found[0].names_prerelease && found.len() == 1);
/// assert_eq!(conflicts_text(b"foo>=2\nbar\nfoo<1\n", LIMIT)?, "foo 1,3\n");
/// # Ok::<(), fowlyore::Refused>(())
/// ```
///
/// # Errors
///
/// `Refused` for an invalid list, then for the first package by name with more cases than `limit`, and beyond
/// [`Bounds::default`].
pub fn conflicts(requirements: &[u8], limit: u64) -> Result<Vec<Conflict>, Refused> {
    Bounds::default().conflicts(requirements, limit)
}

/// The answer of [`conflicts`] as `reqs conflicts` prints it.
///
/// # Errors
///
/// As those of [`conflicts`].
pub fn conflicts_text(requirements: &[u8], limit: u64) -> Result<String, Refused> {
    Bounds::default().conflicts_text(requirements, limit)
}

/// The answer of [`conflicts`] as the JSON that `reqs conflicts --format json` prints: an object on one line,
/// whose `conflicts` are objects with the `lines`, the `package`, and whether one of the lines names a
/// pre-release (`prerelease`).
///
/// ```
/// let json = fowlyore::conflicts_json(b"foo>=2\nbar\nfoo<1\n", fowlyore::LIMIT)?;
/// let conflict = r#"{"lines":[1,3],"package":"foo","prerelease":false}"#;
/// assert_eq!(json, format!("{{\"conflicts\":[{conflict}]}}\n"));
/// # Ok::<(), fowlyore::Refused>(())
/// ```
///
/// # Errors
///
/// As those of [`conflicts`].
pub fn conflicts_json(requirements: &[u8], limit: u64) -> Result<String, Refused> {
    Bounds::default().conflicts_json(requirements, limit)
}

/// The list in its normal form, without the lines that never apply.
///
/// ```
/// assert_eq!(fowlyore::normal(b"Foo_Bar [b , a] < 2.0 , >= 1.16\n")?, "foo-bar[b,a]>=1.16,<2.0\n");
/// # Ok::<(), fowlyore::Refused>(())
/// ```
///
/// # Errors
///
/// `Refused` for an invalid list, then for the first line that has no normal form, and beyond
/// [`Bounds::default`].
pub fn normal(requirements: &[u8]) -> Result<String, Refused> {
    Bounds::default().normal(requirements)
}

/// The list in its normal form as the JSON that `reqs normal --format json` prints: an object on one line,
/// whose `requirements` are the lines of [`normal`].
///
/// ```
/// let json = fowlyore::normal_json(b"Foo_Bar [b , a] < 2.0 , >= 1.16\n")?;
/// assert_eq!(json, "{\"requirements\":[\"foo-bar[b,a]>=1.16,<2.0\"]}\n");
/// # Ok::<(), fowlyore::Refused>(())
/// ```
///
/// # Errors
///
/// As those of [`normal`].
pub fn normal_json(requirements: &[u8]) -> Result<String, Refused> {
    Bounds::default().normal_json(requirements)
}

/// Calls on lists within these bounds. Each is the function of its name; beyond a bound it returns a `Refused`
/// for which [`is_of_nodes`](Refused::is_of_nodes), [`is_of_clauses`](Refused::is_of_clauses) or
/// [`is_of_cases`](Refused::is_of_cases) is true.
impl Bounds {
    /// The rows of [`matrix`] within the bounds on nodes and cases.
    ///
    /// # Errors
    ///
    /// As those of [`matrix`], beyond these bounds.
    pub fn matrix(
        self,
        requirements: &[u8],
        environments: &[u8],
        candidates: &[u8],
        extras: &[&str],
        limit: u64,
    ) -> Result<Vec<Vec<Row>>, Refused> {
        let text = self.matrix_text(requirements, environments, candidates, extras, limit)?;
        let each = elements(environments);
        if let Some(texts) = grammar::environments(&text, each.len()) {
            return Ok(texts.into_iter().map(rows_of).collect());
        }
        let checked = each
            .into_iter()
            .map(|it| check(requirements, it, candidates, extras));
        checked.collect()
    }

    /// The text of [`matrix_text`] within the bounds on nodes and cases.
    ///
    /// # Errors
    ///
    /// As those of [`matrix`], beyond these bounds.
    pub fn matrix_text(
        self,
        requirements: &[u8],
        environments: &[u8],
        candidates: &[u8],
        extras: &[&str],
        limit: u64,
    ) -> Result<String, Refused> {
        let lists = [requirements, environments, candidates];
        native::matrix(lists, extras, limit, self, Format::Text)
    }

    /// The JSON of [`matrix_json`] within the bounds on nodes and cases.
    ///
    /// # Errors
    ///
    /// As those of [`matrix`], beyond these bounds.
    pub fn matrix_json(
        self,
        requirements: &[u8],
        environments: &[u8],
        candidates: &[u8],
        extras: &[&str],
        limit: u64,
    ) -> Result<String, Refused> {
        let lists = [requirements, environments, candidates];
        native::matrix(lists, extras, limit, self, Format::Json)
    }

    /// The answer of [`same`] within the bounds on nodes, of both lists together, on the clauses of the difference,
    /// and on the cases of either list.
    ///
    /// ```
    /// use fowlyore::{Bounds, Same, LIMIT};
    ///
    /// let few = Bounds { nodes: 1, ..Bounds::default() };
    /// assert_eq!(few.same(b"foo ; os_name == 'nt'\n", b"foo ; 'nt' == os_name\n", LIMIT)?, Same::Yes);
    /// let list = b"foo\nbar ; os_name == 'nt' or extra == 'a'\n";
    /// let refused = few.same(b"foo\n", list, LIMIT).unwrap_err();
    /// assert_eq!((refused.input, refused.line), (2, 2));
    /// assert_eq!(refused.message, "right: line 2: more than 1 nodes");
    /// assert!(refused.is_of_nodes());
    /// # Ok::<(), fowlyore::Refused>(())
    /// ```
    ///
    /// # Errors
    ///
    /// As those of [`same`], beyond these bounds.
    pub fn same(self, left: &[u8], right: &[u8], limit: u64) -> Result<Same, Refused> {
        let answer = native::same(left, right, limit, self, Format::Text)?;
        Ok(related(answer, Same::Yes))
    }

    /// The JSON of [`same_json`] within these bounds.
    ///
    /// # Errors
    ///
    /// As those of [`same`], beyond these bounds.
    pub fn same_json(self, left: &[u8], right: &[u8], limit: u64) -> Result<String, Refused> {
        native::same(left, right, limit, self, Format::Json).map(native::Answer::text)
    }

    /// The answer of [`covers`] within the bounds on nodes, of both lists together, on the clauses of the place
    /// that isn't covered, and on the cases of either list.
    ///
    /// ```
    /// use fowlyore::{Bounds, Covers, LIMIT};
    ///
    /// let few = Bounds { nodes: 1, ..Bounds::default() };
    /// assert_eq!(few.covers(b"foo==1\n", b"foo ; os_name == 'nt'\n", LIMIT)?, Covers::Yes);
    /// let list = b"foo\nbar ; os_name == 'nt' or extra == 'a'\n";
    /// let refused = few.covers(b"foo\n", list, LIMIT).unwrap_err();
    /// assert_eq!((refused.input, refused.line), (2, 2));
    /// assert_eq!(refused.message, "requirements: line 2: more than 1 nodes");
    /// assert!(refused.is_of_nodes());
    /// # Ok::<(), fowlyore::Refused>(())
    /// ```
    ///
    /// # Errors
    ///
    /// As those of [`covers`], beyond these bounds.
    pub fn covers(self, lock: &[u8], requirements: &[u8], limit: u64) -> Result<Covers, Refused> {
        let answer = native::covers(lock, requirements, limit, self, Format::Text)?;
        Ok(related(answer, Covers::Yes))
    }

    /// The JSON of [`covers_json`] within these bounds.
    ///
    /// # Errors
    ///
    /// As those of [`covers`], beyond these bounds.
    pub fn covers_json(
        self,
        lock: &[u8],
        requirements: &[u8],
        limit: u64,
    ) -> Result<String, Refused> {
        native::covers(lock, requirements, limit, self, Format::Json).map(native::Answer::text)
    }

    /// The answer of [`conflicts`] within the bounds on nodes and cases.
    ///
    /// ```
    /// use fowlyore::{Bounds, LIMIT};
    ///
    /// let list = b"foo>=2\nfoo<1 ; os_name == 'nt'\n";
    /// let most = |cases| Bounds { cases, ..Bounds::default() }.conflicts(list, LIMIT);
    /// assert_eq!(most(2)?.len(), 1);
    /// let refused = most(1).unwrap_err();
    /// assert_eq!(refused.message, "requirements: more than 1 cases in all");
    /// assert!(refused.is_of_cases());
    /// # Ok::<(), fowlyore::Refused>(())
    /// ```
    ///
    /// # Errors
    ///
    /// As those of [`conflicts`], beyond these bounds.
    pub fn conflicts(self, requirements: &[u8], limit: u64) -> Result<Vec<Conflict>, Refused> {
        self.conflicts_text(requirements, limit)
            .map(|it| conflicts_of(&it))
    }

    /// The text of [`conflicts_text`] within the bounds on nodes and cases.
    ///
    /// # Errors
    ///
    /// As those of [`conflicts`], beyond these bounds.
    pub fn conflicts_text(self, requirements: &[u8], limit: u64) -> Result<String, Refused> {
        native::conflicts(requirements, limit, self, Format::Text)
    }

    /// The JSON of [`conflicts_json`] within the bounds on nodes and cases.
    ///
    /// # Errors
    ///
    /// As those of [`conflicts`], beyond these bounds.
    pub fn conflicts_json(self, requirements: &[u8], limit: u64) -> Result<String, Refused> {
        native::conflicts(requirements, limit, self, Format::Json)
    }

    /// The list in [`normal`] form within the bounds on nodes and on the clauses of each line.
    ///
    /// ```
    /// use fowlyore::Bounds;
    ///
    /// let list = b"foo ; os_name == 'nt' or extra == 'a'\n";
    /// let refused = Bounds { clauses: 1, ..Bounds::default() }.normal(list).unwrap_err();
    /// assert_eq!(refused.message, "requirements: line 1: more than 1 clauses");
    /// assert!(refused.is_of_clauses());
    /// ```
    ///
    /// # Errors
    ///
    /// As those of [`normal`], beyond these bounds.
    pub fn normal(self, requirements: &[u8]) -> Result<String, Refused> {
        native::normal(requirements, self, Format::Text)
    }

    /// The JSON of [`normal_json`] within the bounds on nodes and clauses.
    ///
    /// # Errors
    ///
    /// As those of [`normal`], beyond these bounds.
    pub fn normal_json(self, requirements: &[u8]) -> Result<String, Refused> {
        native::normal(requirements, self, Format::Json)
    }
}
