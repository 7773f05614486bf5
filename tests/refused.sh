#!/usr/bin/env bash
# Refused memory: programs are run with each of their requests for memory refused in turn; refused.py says which, and
# what they have to do then. The last line is `refused: N passed, M failed`.
set -u

top=$(cd -- "$(dirname -- "$(readlink -f -- "${BASH_SOURCE[0]}")")/.." && pwd) || exit 1

fail() {
    echo "FAILED: $1"
    echo "refused: 0 passed, 1 failed"
    exit 1
}

command -v cc >/dev/null || fail "there is no C compiler cc on the PATH, which compiles what refuses memory, tests/refuse.c"
for program in reqs_cli questions; do
    "$top/build" "$program" || fail "$program was not built"
done
work=$(mktemp -d) || exit 1
trap 'rm -rf "$work"' EXIT
cc -O2 -Wall -Wextra -fno-builtin -shared -fPIC -o "$work/refuse.so" "$top/tests/refuse.c" || fail "tests/refuse.c was not compiled"
python3 "$top/tests/refused.py" "$work/refuse.so"
