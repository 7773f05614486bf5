//! Answers as values: they say what the commands print as text and as JSON, and a table what each environment
//! is answered.

mod drawn;

use drawn::{escaped, Draws};
use fowlyore::{
    check, check_json, check_text, conflicts, conflicts_json, conflicts_text, covers, covers_json,
    matrix, matrix_json, matrix_text, normal, normal_json, same, same_json, Conflict, Covers,
    MarkerTree, Outcome, Requirement, Row, Same, Version, VersionSpecifiers, LIMIT,
};
use std::fmt::Display;
use std::str::FromStr;

/// Names, of which `env` is also how `matrix` begins a line that is no row.
const NAMES: [&str; 6] = ["env", "ENV", "Foo", "b_c.d", "none", "pre"];
const SPECIFIERS: [&str; 11] = [
    "",
    "",
    ">=1",
    "<2",
    ">=2rc1",
    "==1",
    "==2.*",
    "<1",
    "!=2",
    "~=1.5",
    " @ https://example.org/x",
];
/// Specifiers that can be compared.
const COMPARED: usize = 10;
const VERSIONS: [&str; 7] = ["1", "2", "1.5", "2.0RC1", "1.0.post1", "1+a", "3"];

/// The text of a list, whose specifiers are among the first of the above.
fn list(draws: &mut Draws, specifiers: usize) -> String {
    let count = draws.below(7);
    let mut line = || {
        let (name, extras) = (draws.one(&NAMES), draws.one(&["", "", "[z]", "[B_1,a]"]));
        let required = draws.one(&SPECIFIERS[..specifiers]);
        let marker = if draws.below(2) == 0 { "" } else { "and" };
        match marker {
            "" => format!("{name}{extras}{required}\n"),
            _ => format!("{name}{extras}{required} ; {}\n", draws.marker(2)),
        }
    };
    (0..count).map(|_| line()).collect()
}

fn candidates(draws: &mut Draws) -> String {
    let count = draws.below(20);
    let line = |_| format!("{} {}\n", draws.one(&NAMES), draws.one(&VERSIONS));
    (0..count).map(line).collect()
}

fn environment(draws: &mut Draws) -> String {
    let version = draws.version();
    draws.environment(version)
}

fn lines<Item: Display>(items: &[Item]) -> String {
    items.iter().map(|it| format!("{it}\n")).collect()
}

/// The text of a JSON array with what is written of each item.
fn array<Item>(items: &[Item], write: impl Fn(&Item) -> String) -> String {
    let items: Vec<String> = items.iter().map(write).collect();
    format!("[{}]", items.join(","))
}

fn quoted(text: &str) -> String {
    format!("\"{}\"", escaped(text))
}

fn row_object(row: &Row) -> String {
    let extras = array(&row.extras, |it| quoted(it));
    let (outcome, version) = match &row.outcome {
        Outcome::None => ("none", "null".to_string()),
        Outcome::Direct => ("direct", "null".to_string()),
        Outcome::Version(version) => ("version", quoted(version.as_str())),
    };
    let name = quoted(&row.package);
    format!(r#"{{"extras":{extras},"name":{name},"outcome":"{outcome}","version":{version}}}"#)
}

fn conflict_object(conflict: &Conflict) -> String {
    let lines = array(&conflict.lines, usize::to_string);
    let package = quoted(&conflict.package);
    let prerelease = conflict.names_prerelease;
    format!(r#"{{"lines":{lines},"package":{package},"prerelease":{prerelease}}}"#)
}

fn same_object(same: &Same) -> String {
    match same {
        Same::Yes => r#"{"same":true}"#.to_string(),
        Same::No { package, marker } => {
            let marker = marker.as_deref().map_or("null".to_string(), quoted);
            let package = quoted(package);
            format!(r#"{{"marker":{marker},"package":{package},"same":false}}"#)
        }
    }
}

#[test]
fn rows_are_what_is_printed() {
    let mut draws = Draws::of(41);
    let mut counts = [0; 3];
    for _ in 0..1500 {
        let (list, candidates) = (list(&mut draws, SPECIFIERS.len()), candidates(&mut draws));
        let (environment, extras) = (environment(&mut draws), draws.extras());
        let texts = [
            list.as_bytes(),
            environment.as_bytes(),
            candidates.as_bytes(),
        ];
        let rows = check(texts[0], texts[1], texts[2], &extras).unwrap();
        let text = check_text(texts[0], texts[1], texts[2], &extras).unwrap();
        assert_eq!(lines(&rows), text, "{list}");
        let json = check_json(texts[0], texts[1], texts[2], &extras).unwrap();
        let packages = array(&rows, row_object);
        assert_eq!(json, format!("{{\"packages\":{packages}}}\n"), "{list}");
        for row in &rows {
            assert_eq!(row.to_string().parse().as_ref(), Ok(row));
            counts[match &row.outcome {
                Outcome::None => 0,
                Outcome::Direct => 1,
                Outcome::Version(_) => 2,
            }] += 1;
        }
    }
    assert!(counts.iter().all(|it| *it > 100), "{counts:?}");
}

/// Also where rows of the package `env` look like the lines before an environment's rows.
#[test]
fn tables_are_what_each_environment_is_answered() {
    let mut draws = Draws::of(42);
    let mut alike = 0;
    for _ in 0..800 {
        let (list, candidates) = (list(&mut draws, SPECIFIERS.len()), candidates(&mut draws));
        let count = draws.below(5);
        let environments: Vec<String> = (0..count).map(|_| environment(&mut draws)).collect();
        let (extras, joined) = (draws.extras(), format!("[{}]", environments.join(", ")));
        let texts = [list.as_bytes(), joined.as_bytes(), candidates.as_bytes()];
        let wanted: Vec<Vec<Row>> = environments
            .iter()
            .map(|it| check(texts[0], it.as_bytes(), texts[2], &extras).unwrap())
            .collect();
        let found = matrix(texts[0], texts[1], texts[2], &extras, LIMIT);
        assert_eq!(found.as_ref(), Ok(&wanted), "{list}, {joined}");
        let numbered = (1..).zip(&wanted);
        let print: String = numbered
            .map(|(at, it)| format!("env {at}\n{}", lines(it)))
            .collect();
        let text = matrix_text(texts[0], texts[1], texts[2], &extras, LIMIT).unwrap();
        assert_eq!(text, print);
        let json = matrix_json(texts[0], texts[1], texts[2], &extras, LIMIT).unwrap();
        let numbered: Vec<(usize, &Vec<Row>)> = (1..).zip(&wanted).collect();
        let objects = array(&numbered, |(at, rows)| {
            let packages = array(rows, row_object);
            format!(r#"{{"number":{at},"packages":{packages}}}"#)
        });
        assert_eq!(json, format!("{{\"environments\":{objects}}}\n"));
        alike += usize::from(
            text.lines()
                .filter(|it| ["env 1", "env 2", "env 3"].contains(it))
                .count()
                > count,
        );
    }
    assert!(alike > 20, "{alike}");
}

#[test]
fn conflicts_are_what_is_printed() {
    let mut draws = Draws::of(43);
    let mut counts = [0; 2];
    for _ in 0..1500 {
        let list = list(&mut draws, SPECIFIERS.len());
        let found = conflicts(list.as_bytes(), LIMIT).unwrap();
        let text = conflicts_text(list.as_bytes(), LIMIT).unwrap();
        assert_eq!(lines(&found), text, "{list}");
        let json = conflicts_json(list.as_bytes(), LIMIT).unwrap();
        let objects = array(&found, conflict_object);
        assert_eq!(json, format!("{{\"conflicts\":{objects}}}\n"), "{list}");
        for it in &found {
            assert!(*it.lines.last().unwrap() <= list.lines().count());
            assert_eq!(it.to_string().parse::<Conflict>().as_ref(), Ok(it));
            counts[usize::from(it.names_prerelease)] += 1;
        }
    }
    assert!(counts.iter().all(|it| *it > 50), "{counts:?}");
}

fn covers_object(covers: &Covers) -> String {
    match covers {
        Covers::Yes => r#"{"covers":true}"#.to_string(),
        Covers::No {
            package,
            marker,
            lines,
        } => {
            let lines = array(lines, usize::to_string);
            let marker = marker.as_deref().map_or("null".to_string(), quoted);
            let package = quoted(package);
            format!(r#"{{"covers":false,"lines":{lines},"marker":{marker},"package":{package}}}"#)
        }
    }
}

/// A list covers itself in another order and with a package besides, and doesn't cover one that it lacks.
#[test]
fn what_is_not_covered_has_its_package_place_and_lines() {
    let mut draws = Draws::of(45);
    let mut counts = [0; 2];
    for _ in 0..800 {
        let lines = list(&mut draws, COMPARED);
        let turned: String = lines.lines().rev().map(|it| format!("{it}\n")).collect();
        let (place, wanted) =
            draws.one(&[("", None), (" ; os_name == 'x'", Some("os_name == 'x'"))]);
        let more = format!("zz{place}\n{turned}");
        assert_eq!(
            covers(more.as_bytes(), lines.as_bytes(), LIMIT),
            Ok(Covers::Yes),
            "{lines}"
        );
        let no = Covers::No {
            package: "zz".into(),
            marker: wanted.map(String::from),
            lines: vec![1],
        };
        assert_eq!(
            covers(lines.as_bytes(), more.as_bytes(), LIMIT),
            Ok(no),
            "{lines}"
        );
        let other = list(&mut draws, COMPARED);
        let found = covers(lines.as_bytes(), other.as_bytes(), LIMIT).unwrap();
        assert_eq!(
            found.to_string().parse().as_ref(),
            Ok(&found),
            "{lines}, {other}"
        );
        let json = covers_json(lines.as_bytes(), other.as_bytes(), LIMIT).unwrap();
        assert_eq!(json, covers_object(&found) + "\n", "{lines}, {other}");
        counts[usize::from(found == Covers::Yes)] += 1;
    }
    assert!(counts.iter().all(|it| *it > 5), "{counts:?}");
}

/// A list requires the same in another order, and something else where a package is required besides.
#[test]
fn differences_have_their_package_and_place() {
    let mut draws = Draws::of(44);
    let mut counts = [0; 3];
    for _ in 0..800 {
        let left = list(&mut draws, COMPARED);
        let turned: String = left.lines().rev().map(|it| format!("{it}\n")).collect();
        assert_eq!(
            same(left.as_bytes(), turned.as_bytes(), LIMIT),
            Ok(Same::Yes),
            "{left}"
        );
        let (place, wanted) =
            draws.one(&[("", None), (" ; os_name == 'x'", Some("os_name == 'x'"))]);
        let more = format!("zz{place}\n{left}");
        let no = Same::No {
            package: "zz".into(),
            marker: wanted.map(String::from),
        };
        assert_eq!(
            same(left.as_bytes(), more.as_bytes(), LIMIT),
            Ok(no),
            "{left}"
        );
        let right = list(&mut draws, COMPARED);
        let found = same(left.as_bytes(), right.as_bytes(), LIMIT).unwrap();
        assert_eq!(
            found.to_string().parse().as_ref(),
            Ok(&found),
            "{left}, {right}"
        );
        let json = same_json(left.as_bytes(), right.as_bytes(), LIMIT).unwrap();
        assert_eq!(json, same_object(&found) + "\n", "{left}, {right}");
        counts[match &found {
            Same::Yes => 0,
            Same::No { marker: None, .. } => 1,
            Same::No {
                marker: Some(_), ..
            } => 2,
        }] += 1;
    }
    assert!(counts.iter().all(|it| *it > 10), "{counts:?}");
}

/// A list without a normal form is refused alike as text and as JSON.
#[test]
fn normal_lines_are_those_of_the_text() {
    let mut draws = Draws::of(45);
    let mut counts = [0; 2];
    for _ in 0..1500 {
        let list = list(&mut draws, COMPARED);
        let text = normal(list.as_bytes());
        let wanted = text.as_ref().map(|it| {
            let lines: Vec<&str> = it.lines().collect();
            let requirements = array(&lines, |it| quoted(it));
            format!("{{\"requirements\":{requirements}}}\n")
        });
        let json = normal_json(list.as_bytes());
        assert_eq!(json.as_ref(), wanted.as_ref().map_err(|it| *it), "{list}");
        counts[usize::from(json.is_err())] += 1;
    }
    assert!(counts.iter().all(|it| *it > 50), "{counts:?}");
}

#[test]
fn prints_are_as_wide_as_they_are_asked_for() {
    fn padded<Item: Display + FromStr>(text: &str)
    where
        Item::Err: std::fmt::Debug,
    {
        let (item, more): (Item, _) = (text.parse().unwrap(), text.chars().count() + 3);
        assert_eq!(format!("{item:more$}|"), format!("{text}   |"));
        assert_eq!(format!("{item:*>more$}"), format!("***{text}"));
        assert_eq!(format!("{item:1}"), text);
    }
    for text in ["foo none", "foo[a,b] 1.5", "foo direct"] {
        padded::<Row>(text);
    }
    for text in ["foo 1,12", "foo 1,12 pre"] {
        padded::<Conflict>(text);
    }
    for text in [
        "yes",
        "no\nfoo\nos_name == 'nt'",
        "no\nfoo\nall environments",
    ] {
        padded::<Same>(text);
    }
    for text in [
        "yes",
        "no\nfoo\nos_name == 'nt'\n1,3",
        "no\nfoo\nall environments\n1",
    ] {
        padded::<Covers>(text);
    }
    for text in [
        "foo",
        "foo[a,b]>=1,<2 ; os_name == 'nt'",
        "foo @ https://example.org/\u{e9} ; os_name == \"it's\"",
    ] {
        padded::<Requirement>(text);
    }
    padded::<Version>("1.5");
    padded::<VersionSpecifiers>(">=1, <2");
    padded::<MarkerTree>("os_name == 'nt'");
    let refused = "foo>>1".parse::<Requirement>().unwrap_err();
    assert_eq!(format!("{refused:100}"), format!("{:100}", refused.message));
}

#[test]
fn refusals_are_the_same_as_json() {
    let (list, none) = (b"foo>=1\nbar>>2\n", b"{}");
    let pairs = [
        (
            check_json(list, none, b"", &[]),
            check_text(list, none, b"", &[]),
        ),
        (
            matrix_json(list, none, b"", &[], LIMIT),
            matrix_text(list, none, b"", &[], LIMIT),
        ),
        (
            same_json(list, b"", LIMIT),
            same(list, b"", LIMIT).map(|it| it.to_string()),
        ),
        (conflicts_json(list, LIMIT), conflicts_text(list, LIMIT)),
        (normal_json(list), normal(list)),
    ];
    for (json, text) in pairs {
        assert_eq!(json, text);
        let refused = json.unwrap_err();
        assert_eq!((refused.input, refused.line, refused.start), (1, 2, 3));
    }
}

#[test]
fn other_prints_are_refused_at_their_place() {
    for (text, start, len) in [
        ("", 0, 0),
        ("foo", 3, 0),
        ("foo ", 4, 0),
        ("Foo 1", 0, 1),
        ("foo[] 1", 4, 1),
        ("foo[b,a] 1", 6, 1),
        ("foo[a,a] 1", 6, 1),
        ("foo 1.0-rc1", 7, 1),
        ("foo v1", 4, 1),
        ("foo 1.0rc01", 4, 1),
        ("foo None", 4, 1),
        ("foo 1\n", 5, 1),
        ("foo 1\u{e9}", 5, 2),
    ] {
        let refused = text.parse::<Row>().unwrap_err();
        let place = (refused.input, refused.line, refused.start, refused.len);
        assert_eq!(place, (1, 0, start, len), "{text:?}: {refused}");
    }
    assert_eq!("foo 0,1".parse::<Conflict>().unwrap_err().start, 4);
    assert_eq!("foo 2,1".parse::<Conflict>().unwrap_err().start, 6);
    assert_eq!("no\nfoo\n".parse::<Same>().unwrap_err().start, 7);
}
