//! Lists where a marker holds: answers are those on lists whose lines have that marker joined by `and`.

mod drawn;

use drawn::Draws;
use fowlyore::{Bounds, Covers, MarkerTree, Same, LIMIT};

const NAMES: [&str; 3] = ["foo", "bar", "b_c.d"];
const REQUIRED: [&str; 7] = ["", ">=1", "<2", "[z]", "[B_1,a]==2.*", ">=2rc1", "~=1.5"];

/// The lines of a list, each as its front and its marker, which may be empty.
fn lines(draws: &mut Draws) -> Vec<(String, String)> {
    let count = draws.below(5);
    let mut line = || {
        let front = format!("{}{}", draws.one(&NAMES), draws.one(&REQUIRED));
        let marker = if draws.below(3) == 0 {
            String::new()
        } else {
            draws.marker(2)
        };
        (front, marker)
    };
    (0..count).map(|_| line()).collect()
}

fn plain(lines: &[(String, String)]) -> String {
    let line = |(front, marker): &(String, String)| match marker.as_str() {
        "" => format!("{front}\n"),
        _ => format!("{front} ; {marker}\n"),
    };
    lines.iter().map(line).collect()
}

fn joined(lines: &[(String, String)], with: &str) -> String {
    let line = |(front, marker): &(String, String)| match marker.as_str() {
        "" => format!("{front} ; {with}\n"),
        _ => format!("{front} ; ({marker}) and ({with})\n"),
    };
    lines.iter().map(line).collect()
}

#[test]
fn a_marker_is_joined_to_each_line() {
    let mut draws = Draws::of(46);
    let mut counts = [0; 2];
    let usual = Bounds::default();
    for _ in 0..600 {
        let (left, right, with) = (lines(&mut draws), lines(&mut draws), draws.marker(2));
        let marker: MarkerTree = with.parse().unwrap();
        let where_ = usual.assuming(&marker);
        let (one, other) = (plain(&left), plain(&right));
        let (less, others) = (joined(&left, &with), joined(&right, &with));
        let [one, other, less, others] = [&one, &other, &less, &others].map(|it| it.as_bytes());
        let same = where_.same(one, other, LIMIT);
        assert_eq!(same, usual.same(less, others, LIMIT), "{left:?} {with}");
        assert_eq!(
            where_.same_json(one, other, LIMIT),
            usual.same_json(less, others, LIMIT)
        );
        assert_eq!(
            where_.covers(one, other, LIMIT),
            usual.covers(less, others, LIMIT)
        );
        assert_eq!(
            where_.covers_json(one, other, LIMIT),
            usual.covers_json(less, others, LIMIT)
        );
        assert_eq!(
            where_.conflicts(one, LIMIT),
            usual.conflicts(less, LIMIT),
            "{left:?} {with}"
        );
        assert_eq!(
            where_.conflicts_text(one, LIMIT),
            usual.conflicts_text(less, LIMIT)
        );
        assert_eq!(
            where_.conflicts_json(one, LIMIT),
            usual.conflicts_json(less, LIMIT)
        );
        counts[usize::from(same == Ok(Same::Yes))] += 1;
    }
    assert!(counts.iter().all(|it| *it > 20), "{counts:?}");
}

#[test]
fn what_always_holds_changes_nothing_and_where_nothing_holds_nothing_is_required() {
    let (always, never) = (MarkerTree::default(), MarkerTree::never());
    let usual = Bounds::default();
    let (one, other) = (b"foo>=2\nfoo<1\n", b"bar ; os_name == 'nt'\n");
    let all = usual.assuming(&always);
    assert_eq!(all.same(one, other, LIMIT), usual.same(one, other, LIMIT));
    assert_eq!(
        all.covers(one, other, LIMIT),
        usual.covers(one, other, LIMIT)
    );
    assert_eq!(all.conflicts(one, LIMIT), usual.conflicts(one, LIMIT));
    let none = usual.assuming(&never);
    assert_eq!(none.same(one, other, LIMIT), Ok(Same::Yes));
    assert_eq!(none.covers(one, other, LIMIT), Ok(Covers::Yes));
    assert_eq!(none.conflicts(one, LIMIT), Ok(vec![]));
}

#[test]
fn lists_are_refused_by_their_number_and_bounds_hold() {
    let marker: MarkerTree = "os_name == 'nt' or sys_platform == 'win32'"
        .parse()
        .unwrap();
    let usual = Bounds::default().assuming(&marker);
    let refused = usual.same(b"a\n", b"b\na @ b\n", LIMIT).unwrap_err();
    assert_eq!((refused.input, refused.line), (2, 2));
    assert_eq!(refused.message, "right: line 2: URL");
    let few = |nodes, clauses| Bounds {
        nodes,
        clauses,
        ..Bounds::default()
    };
    let refused = few(1, 100).assuming(&marker).conflicts(b"foo\n", LIMIT);
    assert!(refused.unwrap_err().is_of_nodes());
    let refused = few(100, 1).assuming(&marker).same(b"foo\n", b"", LIMIT);
    assert!(refused.unwrap_err().is_of_clauses());
}
