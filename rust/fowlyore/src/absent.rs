//! What stands in for the library where the crate is built without it, as its documentation and its package
//! may be (`build.rs`).

extern "C" {
    #[link_name = "libreqs.a, without which fowlyore was built: REQS_LIB_DIR has to name its folder"]
    fn library_is_absent() -> !;
}

/// Takes the place of each call. Linking it fails, and the linker says the name of the symbol, which is a
/// sentence.
#[cold]
#[inline(never)]
pub(crate) fn library() -> ! {
    // SAFETY: nothing that calls it can be linked.
    unsafe { library_is_absent() }
}
