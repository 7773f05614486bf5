#!/usr/bin/env bash
# The library for C: programs in C link it and make its calls, and so does the one of docs/C.md; c.py says what these have
# to answer. The last line is `c: N passed, M failed`.
set -u

top=$(cd -- "$(dirname -- "$(readlink -f -- "${BASH_SOURCE[0]}")")/.." && pwd) || exit 1

fail() {
    echo "FAILED: $1"
    echo "c: 0 passed, 1 failed"
    exit 1
}

command -v cc >/dev/null || fail "there is no C compiler cc on the PATH"
"$top/build" reqs_c >/dev/null </dev/null || fail "the library was not built"
library=$top/crates/reqs_c/out
work=$(mktemp -d) || exit 1
trap 'rm -rf "$work"' EXIT
compile() {
    cc -std=c11 -D_GNU_SOURCE -O2 -Wall -Wextra -Werror -I"$top/include" "$@" || fail "a program in C was not compiled: $*"
}
compile -o "$work/shared" "$top/tests/c/serve.c" -L"$library" -lreqs -Wl,-rpath,"$library"
compile -o "$work/static" "$top/tests/c/serve.c" "$library/libreqs.a"
compile -o "$work/deep" "$top/tests/c/deep.c" "$library/libreqs.a" -pthread
compile -o "$work/forks" "$top/tests/c/forks.c" -L"$library" -lreqs -Wl,-rpath,"$library" -pthread
cc -O2 -Wall -Wextra -fno-builtin -shared -fPIC -o "$work/refuse.so" "$top/tests/refuse.c" || fail "tests/refuse.c was not compiled"
python3 "$top/tests/c.py" "$work/shared" "$work/static" "$work/deep" "$work/forks" "$work/refuse.so" "$library"
