//! Links the proved library. `REQS_LIB_DIR` names the folder of `libreqs.a`, from this crate's folder where it
//! is relative; the default is the repository's own. Where there is no such file the crate is built all the
//! same, as its documentation and its package are, but no program with it can be linked (`src/absent.rs`).

use std::env;
use std::path::PathBuf;

fn main() {
    println!("cargo:rerun-if-env-changed=REQS_LIB_DIR");
    println!("cargo:rustc-check-cfg=cfg(reqs_absent)");
    // (asked when it runs: cargo may run the same script for a copy of the crate, and the linker elsewhere)
    let here = PathBuf::from(env::var_os("CARGO_MANIFEST_DIR").expect("cargo runs this script"));
    // The folder in which `./build reqs_c` puts the library.
    let built_here = || PathBuf::from("../../crates/reqs_c/out");
    let folder = here.join(env::var_os("REQS_LIB_DIR").map_or_else(built_here, PathBuf::from));
    let archive = folder.join("libreqs.a");
    println!("cargo:rerun-if-changed={}", archive.display());
    if archive.is_file() {
        println!("cargo:rustc-link-search=native={}", folder.display());
        println!("cargo:rustc-link-lib=static=reqs");
        return;
    }
    println!("cargo:rustc-cfg=reqs_absent");
    // (docs.rs builds the documentation alone)
    if env::var_os("DOCS_RS").is_none() {
        println!(
            "cargo:warning=there is no {}, so that no program with fowlyore can be linked: ./build reqs_c makes \
             it, or REQS_LIB_DIR names its folder",
            archive.display()
        );
    }
}
