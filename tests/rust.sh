#!/usr/bin/env bash
# Runs the tests of rust/fowlyore, and the examples in its documentation, over the library that ./build reqs_c makes, and holds what the
# crate declares against include/reqs.h, and its licences against the repository's.
set -u

top=$(dirname -- "$(dirname -- "$(readlink -f -- "${BASH_SOURCE[0]}")")")
if ! command -v cargo >/dev/null; then
    echo "rust.sh: left out: cargo, which builds the crate (Debian's package cargo), is not on the PATH"
    python3 "$top/tests/rust/declarations.py"
    exit
fi
room=$(mktemp -d)
trap 'rm -rf "$room"' EXIT
cp -r "$top/rust/fowlyore" "$room/fowlyore"
rm -rf "$room/fowlyore/target"
export REQS_LIB_DIR=${REQS_LIB_DIR:-$top/crates/reqs_c/out} CARGO_TARGET_DIR=$room/target
(cd "$room/fowlyore" && cargo test --offline --quiet) >"$room/said" 2>&1
status=$?
python3 "$top/tests/rust/declarations.py" "$room/said" "$status"
