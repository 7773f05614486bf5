#!/usr/bin/env bash
# Tests the Python package's extension under a compiler's checks of addresses and of undefined behaviour, by hand: its own tests on
# many random texts, those of the classes that it makes, and then, without the checks, that 100,000 rounds of calls take no memory.
#
#     extension.sh [LIBRARY]
#
# LIBRARY is libreqs.so, which `./build reqs_c` makes. The last line is `extension: N passed, M failed`, a run each.
set -u
export LC_ALL=C.UTF-8 PYTHONDONTWRITEBYTECODE=1

top=$(cd -- "$(dirname -- "$(readlink -f -- "${BASH_SOURCE[0]}")")/.." && pwd) || exit 1
library=$(realpath -- "${1-$top/crates/reqs_c/out/libreqs.so}") || exit 1
passed=0
failed=0
work=$(mktemp -d) || exit 1
trap 'rm -rf "$work"' EXIT
cd "$top/python" || exit 1
export FOWLYORE_LIBRARY=$library

run() {
    if "$@" >"$work/said" 2>&1; then
        passed=$((passed + 1))
    else
        failed=$((failed + 1))
        tail -n 40 "$work/said"
        echo "FAILED: $*"
    fi
}

checks="-O1 -g -fno-omit-frame-pointer -fsanitize=address,undefined -fno-sanitize-recover=undefined"
run python3 extension/build.py "$work/checked.so" $checks
run python3 extension/build.py "$work/plain.so"
preload="$(cc -print-file-name=libasan.so) $(cc -print-file-name=libubsan.so)"
# (the interpreter's own memory is checked too, as far as it is asked of malloc; it gives back little of it at its end)
for seed in one other; do
    run env LD_PRELOAD="$preload" ASAN_OPTIONS=detect_leaks=0 PYTHONMALLOC=malloc FOWLYORE_EXTENSION="$work/checked.so" \
        FOWLYORE_RANDOM="${FOWLYORE_RANDOM-20000}" FOWLYORE_SEED=$seed python3 -W error -m unittest -q tests.test_extension
done
run env LD_PRELOAD="$preload" ASAN_OPTIONS=detect_leaks=0 PYTHONMALLOC=malloc FOWLYORE_EXTENSION="$work/checked.so" FOWLYORE_RANDOM=500 \
    python3 -W error -m unittest -q tests.test_version tests.test_specifiers tests.test_markers tests.test_requirements \
    tests.test_pickles tests.test_properties
run env FOWLYORE_EXTENSION="$work/plain.so" FOWLYORE_ROUNDS=100000 python3 -m unittest -q tests.test_extension.Memory
echo "extension: $passed passed, $failed failed"
[ "$failed" -eq 0 ]
