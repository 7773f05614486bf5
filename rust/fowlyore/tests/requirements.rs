//! Requirements: their markers are what is written in the text, and prints are read again.

mod drawn;

use drawn::Draws;
use fowlyore::{check_text, MarkerTree, Refused, Requirement};

const LINUX: &str = r#"{"implementation_name": "cpython", "implementation_version": "3.11.7", "os_name": "posix",
    "platform_machine": "x86_64", "platform_python_implementation": "CPython", "platform_release": "6.1",
    "platform_system": "Linux", "platform_version": "", "python_full_version": "3.11.7",
    "python_version": "3.11", "sys_platform": "linux"}"#;

fn read(text: &str) -> Requirement {
    text.parse()
        .unwrap_or_else(|it: Refused| panic!("{text} is no requirement: {it}"))
}

#[test]
fn no_requirement_is_hidden_by_its_print() {
    let text = "evil>=1 ; os_name != \"x' and sys_platform == 'win32\"";
    let line = read(text);
    assert_eq!(line.marker.evaluate(LINUX, &[]), Ok(true));
    assert_eq!(
        check_text(text.as_bytes(), LINUX.as_bytes(), b"evil 1.0\n", &[]),
        Ok("evil 1.0\n".into())
    );
    assert_eq!(
        check_text(
            line.to_string().as_bytes(),
            LINUX.as_bytes(),
            b"evil 1.0\n",
            &[]
        ),
        Ok("evil 1.0\n".into())
    );
    assert_ne!(
        line,
        read("evil>=1 ; os_name != 'x' and sys_platform == 'win32'")
    );
    assert_ne!(
        read("foo ; implementation_version in '1+x'"),
        read("foo ; implementation_version in '1'")
    );
}

#[test]
fn markers_are_what_stands_in_the_text() {
    for (text, marker) in [
        ("foo ; os_name == 'nt'", "os_name == 'nt'"),
        (" foo>=1;os_name == ';'\t", "os_name == ';'"),
        (
            "foo @ https://example.org/;x ;  os.name == \"\u{e9};\" ",
            "os.name == \"\u{e9};\"",
        ),
        (
            "foo[a, b] @ https://example.org/\u{e9};x#y;z ; extra == 'a'",
            "extra == 'a'",
        ),
        ("foo", ""),
        (" foo @ https://example.org/;x ", ""),
    ] {
        assert_eq!(read(text).marker.as_given(), marker, "{text}");
    }
    assert_eq!(read("foo").marker, MarkerTree::default());
    assert_eq!(read("foo ; os_name == 'a' or os_name != 'a'"), read("foo"));
}

#[test]
fn drawn_requirements_read_back() {
    let mut draws = Draws::of(11);
    for _ in 0..3000 {
        let (text, marker) = draws.requirement();
        let line = read(&text);
        assert_eq!(line.marker.as_given(), marker, "{text}");
        assert_eq!(line.marker, marker.parse().unwrap(), "{text}");
        let print = line.to_string();
        assert_eq!(read(&print), line, "{text:?} is printed {print:?}");
        assert_eq!(line.url.is_some(), text.contains('@'), "{text}");
    }
}

/// The command is run on the text, and reports whether the requirement applies.
#[test]
fn requirements_apply_as_their_texts_do() {
    let mut draws = Draws::of(12);
    let (mut applied, count) = (0, 1500);
    for _ in 0..count {
        let text = format!("foo ; {}", draws.marker(3));
        let (environment, extras) = (draws.version(), draws.extras());
        let environment = draws.environment(environment);
        let rows = |it: &str| {
            check_text(it.as_bytes(), environment.as_bytes(), b"foo 1\n", &extras).unwrap()
        };
        let line = read(&text);
        let applies = line.marker.evaluate(&environment, &extras).unwrap();
        applied += usize::from(applies);
        let wanted = if applies { "foo 1\n" } else { "" };
        assert_eq!(rows(&text), wanted, "{text}, {environment}, {extras:?}");
        assert_eq!(
            rows(&line.to_string()),
            wanted,
            "{line}, {environment}, {extras:?}"
        );
    }
    assert!(
        applied > count / 10 && applied < count * 9 / 10,
        "{applied}"
    );
}
