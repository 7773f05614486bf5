//! Bounds on what calls make of markers and of lists.

use fowlyore::{Bounds, MarkerTree, Refused, Requirement, LIMIT};
use std::panic;

const SMALL: &str = "os_name == 'a' and extra == 'x' or os_name == 'b' and extra == 'y'";

fn read(text: &str) -> MarkerTree {
    text.parse().unwrap()
}

/// A marker of less than 1,100 bytes, whose decision tree has more than 2^30 nodes.
fn nodes_grow() -> String {
    let pair = |it: usize| format!("extra == 'a{it}' and extra == 'b{it}'");
    (10..40).map(pair).collect::<Vec<_>>().join(" or ")
}

/// One whose decision tree has 60 nodes, and whose normal text 2^30 clauses.
fn clauses_grow() -> String {
    let pair = |it: usize| format!("(extra == 'x{it}a' or extra == 'x{it}b')");
    (10..40).map(pair).collect::<Vec<_>>().join(" and ")
}

fn is_of_nodes<T>(answer: Result<T, Refused>) -> bool {
    answer.is_err_and_message("more than 1000000 nodes", Refused::is_of_nodes)
}

fn is_of_clauses<T>(answer: Result<T, Refused>) -> bool {
    answer.is_err_and_message("more than 100000 clauses", Refused::is_of_clauses)
}

/// Whether a call was refused with a message, and so.
trait RefusedSo {
    fn is_err_and_message(self, message: &str, is_so: fn(&Refused) -> bool) -> bool;
}

impl<T> RefusedSo for Result<T, Refused> {
    fn is_err_and_message(self, message: &str, is_so: fn(&Refused) -> bool) -> bool {
        match self {
            Ok(_) => false,
            Err(refused) => refused.message == message && is_so(&refused),
        }
    }
}

#[test]
fn too_many_nodes_are_refused() {
    let (hostile, small) = (read(&nodes_grow()), read(SMALL));
    let bounded = hostile.within(Bounds::default());
    assert!(is_of_nodes(hostile.normal()) && is_of_nodes(hostile.negate()));
    assert!(is_of_nodes(hostile.simplify_python_versions(None, None)));
    assert!(is_of_nodes(hostile.simplify_extras(&["x"])));
    assert!(is_of_nodes(bounded.is_true()) && is_of_nodes(bounded.is_false()));
    assert!(is_of_nodes(bounded.is_disjoint(&small)) && is_of_nodes(bounded.implies(&small)));
    assert!(is_of_nodes(bounded.key()));
    let second = small.within(Bounds::default()).implies(&hostile);
    assert_eq!(second.unwrap_err().input, 2);
}

#[test]
fn too_many_clauses_are_refused() {
    let hostile = read(&clauses_grow());
    assert!(!hostile.is_true() && !hostile.key().is_empty());
    assert!(is_of_clauses(hostile.normal()));
    assert!(is_of_clauses(hostile.simplify_extras(&["x"])));
    // (clauses are counted before they are simplified, one for each path of the tree)
    assert!(is_of_clauses(hostile.negate()));
}

#[test]
fn no_text_that_is_refused_makes_it_a_bound() {
    for counted in [
        "nodes",
        "clauses",
        "clauses for b",
        "cases for b",
        "cases in all",
    ] {
        let said = format!("more than 3 {counted}");
        let lists = [format!("foo=1 ; x: {said}\n"), format!(": {said}\n")];
        let markers = ["a: ", "line 3: ", "a: line 3: ", ""].map(|it| format!("{it}{said}\nb"));
        let of_lists = lists.map(|it| fowlyore::normal(it.as_bytes()).unwrap_err());
        let of_markers = markers.map(|it| it.parse::<MarkerTree>().unwrap_err());
        for refused in of_lists.iter().chain(&of_markers) {
            assert!(refused.message.contains(&said), "{refused}");
            assert!(!refused.is_of_nodes() && !refused.is_of_clauses());
            assert!(!refused.is_of_cases() && !refused.is_of_limit());
        }
    }
}

/// Which of the limit on a package's cases, and the bound on those of all, a refusal is of.
#[test]
fn a_limit_and_a_bound_on_cases_are_told_apart() {
    let list = b"b-2>=2\nb-2<1 ; os_name == 'a'\nc>=2\nc<1 ; os_name == 'a'\n";
    let few = Bounds {
        cases: 2,
        ..Bounds::default()
    };
    for (bounds, limit, message, is_of_limit) in [
        (Bounds::default(), 1, "more than 1 cases for b-2", true),
        (few, LIMIT, "more than 2 cases in all", false),
    ] {
        for refused in [
            bounds.matrix(list, b"[]", b"", &[], limit).unwrap_err(),
            bounds.same(list, b"d\n", limit).unwrap_err(),
            bounds.covers(b"d\n", list, limit).unwrap_err(),
            bounds.conflicts(list, limit).unwrap_err(),
        ] {
            assert!(refused.message.ends_with(message), "{refused}");
            assert_eq!(refused.is_of_limit(), is_of_limit);
            assert_eq!(refused.is_of_cases(), !is_of_limit);
            assert!(!refused.is_of_nodes() && !refused.is_of_clauses());
        }
    }
}

#[test]
fn what_makes_no_tree_needs_no_bound() {
    for text in [nodes_grow(), clauses_grow()] {
        let marker = read(&text);
        assert_eq!(
            (marker.to_string(), marker.as_given()),
            (text.clone(), &*text)
        );
        let line: Requirement = format!("a ; {text}").parse().unwrap();
        assert_eq!(line.marker, marker);
        let both = marker.and(&read("os_name == 'a'")).unwrap();
        assert!(both.as_given().ends_with("and (os_name == 'a')"));
    }
}

#[test]
fn a_bound_that_is_exactly_reached_answers() {
    let (small, other) = (read(SMALL), read("extra == 'x' and os_name == 'c'"));
    let calls: [fn(&MarkerTree, &MarkerTree, Bounds) -> Result<String, Refused>; 5] = [
        |one, other, bounds| {
            one.within(bounds)
                .is_disjoint(other)
                .map(|it| it.to_string())
        },
        |one, other, bounds| one.within(bounds).implies(other).map(|it| it.to_string()),
        |one, _, bounds| one.within(bounds).normal(),
        |one, _, bounds| {
            one.within(bounds)
                .negate()
                .map(|it| it.as_given().to_string())
        },
        |one, _, bounds| {
            one.within(bounds)
                .simplify_extras(&["x"])
                .map(|it| it.as_given().to_string())
        },
    ];
    for call in calls {
        let wanted = call(&small, &other, Bounds::NONE).unwrap();
        let least = (0..).find(|nodes| {
            let bounds = Bounds {
                nodes: *nodes,
                ..Bounds::NONE
            };
            match call(&small, &other, bounds) {
                Ok(answer) => answer == wanted,
                Err(refused) => {
                    assert_eq!(refused.message, format!("more than {nodes} nodes"));
                    false
                }
            }
        });
        assert!(least > Some(0), "{least:?}");
    }
    let clauses = |clauses| {
        small
            .within(Bounds {
                clauses,
                ..Bounds::NONE
            })
            .normal()
    };
    assert_eq!(clauses(1).unwrap_err().message, "more than 1 clauses");
    assert_eq!(clauses(2).unwrap(), small.normal().unwrap());
}

#[test]
fn comparing_needs_the_default_bound_or_a_key() {
    let hostile = read(&nodes_grow());
    assert_eq!(hostile, hostile.clone());
    let compared = panic::catch_unwind(|| read(&nodes_grow()) == read(SMALL));
    assert!(compared.is_err());
}

/// The least of a kind of bound with which a call answers, and how it is refused by one less.
fn least_of(call: &dyn Fn(u64) -> Result<String, Refused>) -> (u64, Refused) {
    let least = (0..100).find(|it| call(*it).is_ok()).unwrap();
    assert_eq!(call(least).unwrap(), call(u64::MAX).unwrap());
    (least, call(least - 1).unwrap_err())
}

#[test]
fn lists_are_refused_beyond_each_bound() {
    let list = format!("b\na>=2 ; {SMALL}\na<1 ; sys_platform == 'z'\n").into_bytes();
    let other = format!("b\na>=2 ; ({SMALL}) and sys_platform != 'z'\n").into_bytes();
    let nodes = |it: u64| Bounds {
        nodes: it as usize,
        ..Bounds::NONE
    };
    let clauses = |it: u64| Bounds {
        clauses: it as usize,
        ..Bounds::NONE
    };
    let cases = |cases| Bounds {
        cases,
        ..Bounds::NONE
    };
    let calls: [&dyn Fn(Bounds) -> Result<String, Refused>; 9] = [
        &|it| it.matrix_text(&list, b"[]", b"", &[], LIMIT),
        &|it| it.matrix_json(&list, b"[]", b"", &[], LIMIT),
        &|it| it.conflicts_text(&list, LIMIT),
        &|it| it.conflicts_json(&list, LIMIT),
        &|it| it.same_json(&list, &other, LIMIT),
        &|it| it.same(&list, &other, LIMIT).map(|it| it.to_string()),
        &|it| it.normal(&list),
        &|it| it.normal_json(&list),
        &|it| {
            it.matrix(&list, b"[]", b"", &[], LIMIT)
                .map(|it| it.len().to_string())
        },
    ];
    for (number, call) in calls.iter().enumerate() {
        let (least, refused) = least_of(&|it| call(nodes(it)));
        assert!(refused
            .message
            .ends_with(&format!("more than {} nodes", least - 1)));
        assert!(refused.is_of_nodes() && !refused.is_of_clauses() && !refused.is_of_cases());
        if (4..8).contains(&number) {
            let (least, refused) = least_of(&|it| call(clauses(it)));
            assert!(refused
                .message
                .contains(&format!("more than {} clauses", least - 1)));
            assert!(refused.is_of_clauses() && !refused.is_of_nodes());
        } else {
            let (least, refused) = least_of(&|it| call(cases(it)));
            assert_eq!(
                refused.message,
                format!("requirements: more than {} cases in all", least - 1)
            );
            assert!(refused.is_of_cases() && refused.input == 1);
        }
    }
}
