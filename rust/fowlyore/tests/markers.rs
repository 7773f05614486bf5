//! Markers: that what is compared, printed and joined means what was written.

mod drawn;

use drawn::Draws;
use fowlyore::{MarkerTree, Refused, Version};
use std::collections::hash_map::DefaultHasher;
use std::collections::HashSet;
use std::hash::{Hash, Hasher};

fn read(text: &str) -> MarkerTree {
    text.parse()
        .unwrap_or_else(|it: Refused| panic!("{text} is no marker: {it}"))
}

fn hashed(marker: &MarkerTree) -> u64 {
    let mut hasher = DefaultHasher::new();
    marker.hash(&mut hasher);
    hasher.finish()
}

/// Whether each marker holds in an environment with extras.
fn held<const COUNT: usize>(
    markers: [&MarkerTree; COUNT],
    environment: &str,
    extras: &[&str],
) -> [bool; COUNT] {
    markers.map(|it| it.evaluate(environment, extras).unwrap())
}

#[test]
fn texts_that_print_alike_differ() {
    for (one, other) in [
        (
            "os_name == \"a' and sys_platform == 'b\"",
            "os_name == 'a' and sys_platform == 'b'",
        ),
        (
            "implementation_version in '1+x'",
            "implementation_version in '1'",
        ),
        ("os.name == 'nt'", "os_name == 'nt'"),
        ("'nt' in os_name", "os_name in 'nt'"),
    ] {
        let (one, other) = (read(one), read(other));
        assert_ne!(one, other);
        assert_ne!(one.key(), other.key());
        assert_eq!(
            HashSet::from([one.clone(), other.clone(), one]).len(),
            2,
            "{other:?}"
        );
    }
}

#[test]
fn prints_read_back() {
    let mut draws = Draws::of(1);
    let (mut normal, mut given, mut empty) = (0, 0, 0);
    for _ in 0..5000 {
        let text = draws.marker(4);
        let marker = read(&text);
        assert_eq!(marker.as_given(), text);
        let print = marker.to_string();
        match marker.normal() {
            Ok(text) => assert_eq!(print, text),
            Err(_) => assert_eq!(print, text),
        }
        *match (print.is_empty(), print == text) {
            (true, _) => &mut empty,
            (_, true) => &mut given,
            _ => &mut normal,
        } += 1;
        assert_eq!(print.is_empty(), marker.is_true(), "{text}");
        if !print.is_empty() {
            assert_eq!(read(&print), marker, "{text} is printed {print}");
        }
    }
    assert!(
        normal > 500 && given > 500 && empty > 50,
        "{normal}, {given}, {empty}"
    );
}

#[test]
fn equal_markers_hold_alike() {
    let mut draws = Draws::of(2);
    let markers: Vec<MarkerTree> = (0..600).map(|_| read(&draws.marker(2))).collect();
    let mut equal = 0;
    for (at, one) in markers.iter().enumerate() {
        for other in &markers[at + 1..] {
            assert_eq!(one == other, one.key() == other.key(), "{one:?}, {other:?}");
            if one == other {
                equal += 1;
                assert_eq!(hashed(one), hashed(other), "{one:?}, {other:?}");
                assert!(
                    one.implies(other) && other.implies(one),
                    "{one:?}, {other:?}"
                );
                let environment = draws.environment("3.9.2");
                let [left, right] = held([one, other], &environment, &["a"]);
                assert_eq!(left, right, "{one:?}, {other:?}");
            }
        }
    }
    assert!(equal > 500, "{equal}");
}

#[test]
fn the_order_is_one() {
    let mut draws = Draws::of(3);
    let mut markers: Vec<MarkerTree> = (0..500).map(|_| read(&draws.marker(2))).collect();
    markers.extend([MarkerTree::default(), MarkerTree::never()]);
    markers.sort();
    for (at, one) in markers.iter().enumerate() {
        for other in &markers[at..] {
            assert!(
                one.cmp(other).is_le() && other.cmp(one).is_ge(),
                "{one:?}, {other:?}"
            );
            assert_eq!(one.cmp(other).is_eq(), one == other, "{one:?}, {other:?}");
        }
    }
}

#[test]
fn algebra_is_as_markers_hold() {
    let mut draws = Draws::of(4);
    let mut negations = 0;
    for _ in 0..1000 {
        let (a, b) = (read(&draws.marker(3)), read(&draws.marker(3)));
        let (both, either) = (a.and(&b).unwrap(), a.or(&b).unwrap());
        let (disjoint, implied, not) = (a.is_disjoint(&b), a.implies(&b), a.negate());
        assert_eq!(both, b.and(&a).unwrap(), "{a:?}, {b:?}");
        assert_eq!(either, b.or(&a).unwrap(), "{a:?}, {b:?}");
        assert_eq!(disjoint, both.is_false(), "{a:?}, {b:?}");
        assert_eq!(implied, both == a, "{a:?}, {b:?}");
        assert!(a.implies(&either) && both.implies(&b), "{a:?}, {b:?}");
        for _ in 0..4 {
            let environment = draws.version();
            let (environment, extras) = (draws.environment(environment), draws.extras());
            let [in_a, in_b, in_both, in_either] =
                held([&a, &b, &both, &either], &environment, &extras);
            assert_eq!(
                (in_both, in_either),
                (in_a && in_b, in_a || in_b),
                "{a:?}, {b:?}, {environment}"
            );
            assert!(!(disjoint && in_both), "{a:?}, {b:?}, {environment}");
            assert!(!implied || !in_a || in_b, "{a:?}, {b:?}, {environment}");
            assert!(in_a || !a.is_true(), "{a:?}, {environment}");
            assert!(!in_a || !a.is_false(), "{a:?}, {environment}");
            if let Ok(not) = &not {
                negations += 1;
                assert_ne!(
                    not.evaluate(&environment, &extras),
                    Ok(in_a),
                    "{a:?}, {environment}"
                );
            }
        }
    }
    assert!(negations > 1000, "{negations}");
}

#[test]
fn what_never_and_always_holds() {
    let (always, never, some) = (
        MarkerTree::default(),
        MarkerTree::never(),
        read("os_name == 'nt'"),
    );
    assert!(always.is_true() && !always.is_false() && never.is_false() && !never.is_true());
    assert!(always.to_string().is_empty() && always.as_given().is_empty());
    assert_eq!(always.key(), read("os_name == 'a' or os_name != 'a'").key());
    assert_eq!(read(&never.to_string()), never);
    assert_eq!(
        never.normal().unwrap_err().message,
        "no normal text: never holds"
    );
    assert_eq!(
        (always.negate(), never.negate()),
        (Ok(never.clone()), Ok(always.clone()))
    );
    assert_eq!(
        (some.and(&always), always.and(&some)),
        (Ok(some.clone()), Ok(some.clone()))
    );
    assert_eq!(
        (some.or(&always), always.or(&some)),
        (Ok(always.clone()), Ok(always.clone()))
    );
    assert_eq!(
        (some.or(&never), never.or(&some)),
        (Ok(some.clone()), Ok(some.clone()))
    );
    assert_eq!(
        (some.and(&never), never.and(&some)),
        (Ok(never.clone()), Ok(never.clone()))
    );
    assert!(some.implies(&always) && never.implies(&some) && !always.implies(&some));
    assert!(never.is_disjoint(&never) && never.is_disjoint(&always) && !always.is_disjoint(&some));
}

/// A comparison that means nothing always holds, and is ignored within another marker.
#[test]
fn what_says_nothing_always_holds() {
    let (nothing, some) = (read("'a' == 'b'"), read("os_name == 'nt'"));
    assert!(nothing.is_true());
    assert!(nothing.or(&some).unwrap().is_true() && some.or(&nothing).unwrap().is_true());
    assert_eq!(
        (nothing.and(&some), some.and(&nothing)),
        (Ok(some.clone()), Ok(some.clone()))
    );
    let nothing_twice = nothing.and(&nothing).unwrap();
    assert!(nothing_twice.or(&some).unwrap().is_true());
    let always = read("os_name == 'nt' or os_name != 'nt'");
    assert!(always.and(&nothing).unwrap().or(&some).unwrap().is_true());
}

#[test]
fn a_thousand_markers_are_joined_both_ways() {
    let markers: Vec<MarkerTree> = (0..1000)
        .map(|it| read(&format!("extra == 'a{it:03}' or extra == 'a{it:03}-too'")))
        .collect();
    let none = MarkerTree::default();
    let forth = markers
        .iter()
        .try_fold(none.clone(), |all, it| all.and(it))
        .unwrap();
    let back = markers
        .iter()
        .rev()
        .try_fold(none, |all, it| it.and(&all))
        .unwrap();
    assert_eq!(forth.as_given(), back.as_given());
    assert!(!forth.is_false() && !forth.is_true());
    let names: Vec<String> = (0..1000).map(|it| format!("a{it:03}")).collect();
    let mut names: Vec<&str> = names.iter().map(String::as_str).collect();
    let environment = Draws::of(5).environment("3.9.2");
    assert_eq!(forth.evaluate(&environment, &names), Ok(true));
    names.remove(500);
    assert_eq!(forth.evaluate(&environment, &names), Ok(false));
    assert_eq!(back.evaluate(&environment, &names), Ok(false));

    let extras: Vec<MarkerTree> = (0..1000)
        .map(|it| read(&format!("extra == 'a{it:03}'")))
        .collect();
    let never = MarkerTree::never();
    let any = extras
        .iter()
        .try_fold(never.clone(), |any, it| any.or(it))
        .unwrap();
    let again = extras
        .iter()
        .rev()
        .try_fold(never, |any, it| it.or(&any))
        .unwrap();
    assert_eq!(any, again);
    assert_eq!(any.evaluate(&environment, &["a999"]), Ok(true));
    assert_eq!(any.evaluate(&environment, &["b"]), Ok(false));
}

/// If brackets would be nested too deep, normal texts are joined.
#[test]
fn connectives_alternate_at_will() {
    let extras: Vec<MarkerTree> = (0..4).map(|it| read(&format!("extra == '{it}'"))).collect();
    // .. and extra == '0' or extra == '2' and extra == '1' or extra == '3', from the left
    let alternated = |first: &str| {
        (0..1000).try_fold(read(first), |all, at| match at % 2 {
            0 => all.and(&extras[at / 2 % 2]),
            _ => all.or(&extras[2 + at / 2 % 2]),
        })
    };
    let deep = alternated("os_name == 'nt'").unwrap();
    let environment = Draws::of(6).environment("3.9.2");
    for (extras, holds) in [
        (&["3"][..], true),
        (&["2"], false),
        (&["1", "2"], true),
        (&[], false),
    ] {
        assert_eq!(deep.evaluate(&environment, extras), Ok(holds), "{extras:?}");
    }
    let refused = alternated("os_name == \"it's\"").unwrap_err();
    assert!(refused.message.contains("256"), "{refused}");
}

/// A text in `count` pairs of brackets.
fn nested(count: usize, text: &str) -> MarkerTree {
    read(&format!("{}{text}{}", "(".repeat(count), ")".repeat(count)))
}

#[test]
fn given_brackets_count() {
    let windows = read("os_name == 'nt'");
    let quoted = nested(256, "os_name == \"it's\"");
    assert_eq!(quoted, read("os_name == \"it's\""));
    assert!(quoted.or(&windows).unwrap_err().message.contains("256"));
    let (most, fewer) = (nested(256, "os_name == 'a'"), nested(255, "os_name == 'a'"));
    assert_eq!(most.or(&windows), read("os_name == 'a'").or(&windows));
    let always = fewer.or(&read("os_name != 'a'")).unwrap();
    assert_eq!(always.and(&windows), Ok(windows.clone()));
    let never = fewer.and(&read("os_name == 'b'")).unwrap();
    assert_eq!(never.or(&windows), Ok(windows.clone()));
    // brackets in strings don't count
    let text = read(&format!("os_name == '{}'", "(".repeat(1000)));
    assert!(text.and(&windows).unwrap().is_false());
    let either = windows.or(&text).unwrap();
    assert!(either.implies(&read("os_name != 'posix'")));
}

#[test]
fn simplified_markers_hold_alike() {
    let mut draws = Draws::of(7);
    let (mut simplified, mut within) = (0, 0);
    for _ in 0..2000 {
        let marker = read(&draws.marker(3));
        let mut bound = || Some(draws.version()).filter(|it| *it != "1");
        let bounds = [bound(), bound()].map(|it| it.map(|it| it.parse::<Version>().unwrap()));
        let (lower, upper) = (bounds[0].as_ref(), bounds[1].as_ref());
        let simple = match marker.simplify_python_versions(lower, upper) {
            Ok(simple) => simple,
            Err(refused) => {
                assert!(refused.message.starts_with("no normal text: "), "{refused}");
                continue;
            }
        };
        simplified += 1;
        for _ in 0..4 {
            let python = draws.version();
            let version: Version = python.parse().unwrap();
            if lower.map_or(true, |it| *it <= version) && upper.map_or(true, |it| version < *it) {
                within += 1;
                let (environment, extras) = (draws.environment(python), draws.extras());
                let [was, is] = held([&marker, &simple], &environment, &extras);
                assert_eq!(was, is, "{marker:?}, {simple:?}, {bounds:?}, {environment}");
            }
        }
    }
    assert!(simplified > 400 && within > 400, "{simplified}, {within}");
}

#[test]
fn simplified_extras_are_taken_as_there() {
    let mut draws = Draws::of(8);
    let mut simplified = 0;
    for _ in 0..2000 {
        let (marker, given, more) = (read(&draws.marker(3)), draws.extras(), draws.extras());
        let simple = match marker.simplify_extras(&given) {
            Ok(simple) => simple,
            Err(refused) => {
                assert!(refused.message.starts_with("no normal text: "), "{refused}");
                continue;
            }
        };
        simplified += 1;
        let environment = draws.environment("3.9.2");
        let all: Vec<&str> = given.iter().chain(&more).copied().collect();
        let was = marker.evaluate(&environment, &all).unwrap();
        let [with, without] = [&all, &more].map(|it| simple.evaluate(&environment, it).unwrap());
        assert_eq!(was, with, "{marker:?}, {simple:?}, {given:?}");
        let asked_again = given.iter().any(|it| more.contains(it));
        assert!(
            with == without || asked_again,
            "{marker:?}, {simple:?}, {given:?}"
        );
    }
    assert!(simplified > 400, "{simplified}");
    let marker = read("extra == 'a'");
    for (extra, message) in [
        ("", "extra  is no name"),
        ("a\nb", "extra a\nb is no name"),
        ("-", "extra - is no name"),
    ] {
        let refused = marker.simplify_extras(&["a", extra]).unwrap_err();
        assert_eq!((refused.message.as_str(), refused.input), (message, 2));
    }
}

/// The normal text of this marker has 2^60 clauses.
#[test]
fn reading_and_comparing_make_no_print() {
    let pairs = |middle: &str| {
        let pair = |it| format!("extra == 'p{it:02}a'{middle}extra == 'p{it:02}b'");
        (0..60).map(pair).collect::<Vec<_>>().join(" or ")
    };
    let (one, other) = (read(&pairs(" and ")), read(&pairs("  and  ")));
    assert_eq!(one, other);
    assert_eq!(hashed(&one), hashed(&other));
    assert_ne!(one, read(&pairs(" or ")));
    let environment = Draws::of(9).environment("3.9.2");
    assert_eq!(one.evaluate(&environment, &["p59a", "p59b"]), Ok(true));
    assert_eq!(one.evaluate(&environment, &["p58a", "p59b"]), Ok(false));
    assert_eq!(
        format!("{one:?}"),
        format!("MarkerTree({:?})", one.as_given())
    );
}

#[test]
fn refusals_say_where() {
    for (text, start) in [
        ("os_name ==", 10),
        ("os_nam == 'a'", 0),
        ("os_name == 'a' x", 15),
    ] {
        let refused = text.parse::<MarkerTree>().unwrap_err();
        assert_eq!((refused.input, refused.start), (1, start), "{refused}");
    }
    assert!("".parse::<MarkerTree>().is_err() && " ".parse::<MarkerTree>().is_err());
}
