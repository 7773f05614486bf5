//! The crate without the library: its documentation and its package are made, and linking a program says what
//! is missing.

use std::path::Path;
use std::process::{Command, Output};

/// Runs cargo on this crate, where the library is in no folder.
fn cargo(words: &[&str]) -> Output {
    cargo_with("/no/such/folder", words)
}

/// Runs cargo on this crate, where the library is looked for in a folder.
fn cargo_with(folder: &str, words: &[&str]) -> Output {
    let target = Path::new(env!("CARGO_TARGET_TMPDIR")).join("without_library");
    Command::new(env!("CARGO"))
        .args(words)
        .arg("--offline")
        .current_dir(env!("CARGO_MANIFEST_DIR"))
        .env("REQS_LIB_DIR", folder)
        .env("CARGO_TARGET_DIR", target)
        .output()
        .expect("cargo runs")
}

fn errors_of(output: &Output) -> String {
    String::from_utf8_lossy(&output.stderr).into_owned()
}

#[test]
fn documentation_and_package_are_made() {
    for words in [&["doc", "--no-deps"][..], &["package", "--allow-dirty"]] {
        let made = cargo(words);
        let errors = errors_of(&made);
        assert!(made.status.success(), "{words:?}: {errors}");
        assert!(
            errors.contains("there is no /no/such/folder/libreqs.a"),
            "{errors}"
        );
    }
}

#[test]
fn linking_says_what_is_missing() {
    let made = cargo(&["test", "--no-run", "--test", "fork"]);
    let errors = errors_of(&made);
    assert!(!made.status.success());
    assert!(
        errors.contains("REQS_LIB_DIR has to name its folder"),
        "{errors}"
    );
    assert!(!errors.contains("reqs_version_key"), "{errors}");
}

#[test]
fn a_relative_folder_is_told_by_its_whole_path() {
    let made = cargo_with("no/such", &["check"]);
    let errors = errors_of(&made);
    assert!(made.status.success(), "{errors}");
    let whole = Path::new(env!("CARGO_MANIFEST_DIR")).join("no/such/libreqs.a");
    let told = format!("there is no {}", whole.display());
    assert!(errors.contains(&told), "{errors}");
}
