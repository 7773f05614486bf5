//! Lists of specifiers as ranges.

mod drawn;

use drawn::Draws;
use fowlyore::{Version, VersionSpecifiers};

/// Specifiers that match each version without a local part exactly if it is a point of their range.
const MEMBERS: [&str; 12] = [
    ">=1", ">=1.2", "<2", "<1.2", "<=1.2", ">1.2", "==1.2", "!=1.2", "==1.*", "!=1.2.*", "~=1.2",
    "<2rc1",
];
const VERSIONS: [&str; 14] = [
    "0.9",
    "1.dev0",
    "1rc1",
    "1",
    "1.1",
    "1.2.dev1",
    "1.2a1",
    "1.2",
    "1.2.post1",
    "1.2.1",
    "1.9",
    "2.dev0",
    "2rc2",
    "2",
];

fn read(text: &str) -> VersionSpecifiers {
    text.parse().unwrap()
}

#[test]
fn ranges_are_as_versions_match() {
    let mut draws = Draws::of(21);
    let versions: Vec<Version> = VERSIONS.iter().map(|it| it.parse().unwrap()).collect();
    let mut list = || {
        let count = draws.below(4);
        let members: Vec<&str> = (0..count).map(|_| draws.one(&MEMBERS)).collect();
        read(&members.join(","))
    };
    let (mut disjoint, mut subsets, mut empty) = (0, 0, 0);
    for _ in 0..3000 {
        let (a, b) = (list(), list());
        let (in_a, in_b) = (a.contains_each(&versions), b.contains_each(&versions));
        let pairs = || in_a.iter().zip(&in_b);
        assert_eq!(a.is_disjoint(&b), b.is_disjoint(&a), "{a}; {b}");
        assert_eq!(a.is_disjoint(&a), a.is_empty_range(), "{a}");
        assert_eq!(a.is_subset(&a), Ok(true), "{a}");
        if a.is_disjoint(&b).unwrap() {
            disjoint += 1;
            assert!(!pairs().any(|(a, b)| *a && *b), "{a}; {b}");
        }
        if a.is_subset(&b).unwrap() {
            subsets += 1;
            assert!(pairs().all(|(a, b)| !*a || *b), "{a}; {b}");
        }
        if a.is_empty_range().unwrap() {
            empty += 1;
            assert!(!in_a.contains(&true), "{a}");
            assert_eq!(
                (a.is_subset(&b), a.is_disjoint(&b)),
                (Ok(true), Ok(true)),
                "{a}; {b}"
            );
        }
    }
    assert!(
        disjoint > 100 && subsets > 100 && empty > 100,
        "{disjoint}, {subsets}, {empty}"
    );
}

#[test]
fn sides_are_told_apart() {
    let (narrow, wide, all) = (read("==1.2"), read(">=1"), VersionSpecifiers::default());
    assert_eq!(
        (narrow.is_subset(&wide), wide.is_subset(&narrow)),
        (Ok(true), Ok(false))
    );
    assert_eq!(
        (wide.is_subset(&all), all.is_subset(&wide)),
        (Ok(true), Ok(false))
    );
    assert_eq!(
        (all.is_empty_range(), all.is_disjoint(&all)),
        (Ok(false), Ok(false))
    );
}

/// Points between versions count, and local versions are points of their own.
#[test]
fn points_are_no_versions() {
    let (compatible, between) = (read("~=1.2"), read(">=1.2,<2"));
    assert_eq!(
        (
            between.is_subset(&compatible),
            compatible.is_subset(&between)
        ),
        (Ok(true), Ok(false))
    );
    let local: Version = "1+a".parse().unwrap();
    let (public, own) = (read("==1"), read("==1+a"));
    assert!(public.contains(&local) && own.contains(&local));
    assert_eq!(public.is_disjoint(&own), Ok(true));
}

#[test]
fn numbers_at_the_end_are_refused() {
    let (last, plain) = (read("~=1.18446744073709551615.0"), read(">=1"));
    for (answer, input) in [
        (last.is_disjoint(&plain), 1),
        (plain.is_disjoint(&last), 2),
        (last.is_subset(&plain), 1),
        (plain.is_subset(&last), 2),
        (last.is_empty_range(), 1),
    ] {
        assert_eq!(answer.unwrap_err().input, input);
    }
}
