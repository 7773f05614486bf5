#!/usr/bin/env bash
# Tests of the Python package by the newest interpreter that there is, over the library that `./build reqs_c` makes; of its types, by
# mypy; of its wheel, installed into an environment of its own; and packaging's own tests, where they were fetched. Or the package's
# tests and its wheel by each older interpreter from 3.8 on, and its tests by the newest one, which calls the library by ctypes.
#
#     python.sh [--older] [LIBRARY]
#
# LIBRARY is taken in place of the built one. What isn't tried is told. The last line is `python: N passed, M failed`.
set -u
export LC_ALL=C.UTF-8 PYTHONDONTWRITEBYTECODE=1

top=$(cd -- "$(dirname -- "$(readlink -f -- "${BASH_SOURCE[0]}")")/.." && pwd) || exit 1
older=
if [ "${1-}" = --older ]; then
    older=yes
    shift
fi
library=${1-$top/crates/reqs_c/out/libreqs.so}
passed=0
failed=0
work=$(mktemp -d) || exit 1
trap 'rm -rf "$work"' EXIT

finish() {
    echo "python: $passed passed, $failed failed"
    [ "$failed" -eq 0 ]
    exit
}

fail() {
    failed=$((failed + 1))
    echo "FAILED: $1"
}

if [ $# -eq 0 ] && ! "$top/build" reqs_c >"$work/said" 2>&1 </dev/null; then
    cat "$work/said"
    fail "the library was not built"
    finish
fi
library=$(realpath -- "$library")

# Interpreters by the version that they tell, each once: those on the path, and those that pyenv has.
declare -A interpreters
for name in python3 python3.{8..20} "${PYENV_ROOT:-${HOME-}/.pyenv}"/versions/3.*/bin/python3; do
    version=$("$name" -c 'import sys; print("%d.%d" % sys.version_info[:2])' 2>/dev/null) || continue
    [ "${version#*.}" -lt 8 ] || interpreters[$version]=${interpreters[$version]-$name}
done

# The package's extension, one file for each interpreter from 3.10 on. It is compiled by the newest, whose headers have to be there.
extension=$work/_extension.abi3.so
newest=$(printf '%s\n' "${!interpreters[@]}" | sort -V | tail -n 1)
python=${interpreters[$newest]}
if ! "$python" "$top/python/extension/build.py" "$extension" 2>"$work/said"; then
    echo "not tried: the extension of the Python package: $(cat "$work/said")"
    extension=no
fi

# Runs a file of tests by an interpreter, which calls the library by the extension or, where that is `no`, by ctypes.
run_tests() {
    cd "$top/python" || return
    [ -z "$4" ] || export FOWLYORE_RANDOM=$4
    FOWLYORE_EXTENSION=$3 FOWLYORE_LIBRARY=$library "$2" -W error -m unittest -q "tests.$5" >"$work/said-$1/$5" 2>&1
}

# Begins to run the files of tests by an interpreter, each by itself, as many at a time as there are processors.
begin_tests() {
    local file
    mkdir "$work/said-$1" || return
    for file in "${files[@]}"; do
        while [ "$(jobs -pr | wc -l)" -ge "$processors" ]; do
            wait -n
        done
        run_tests "$@" "$file" &
    done
}

# The numbers of a kind that the runs of an interpreter told, added up.
sum_of() {
    local number total=0
    for number in $(sed -n "s/$2/\\1/p" "$work/said-$1"/*); do
        total=$((total + number))
    done
    echo "$total"
}

# Which interpreters are tried.
asked=("$newest")
if [ "$older" ]; then
    for minor in {8..13}; do
        [ "${interpreters[3.$minor]-}" ] || echo "not tried: the tests by Python 3.$minor, which is not there (pyenv install 3.$minor)"
    done
    # The package's sources by the grammar of the oldest, whether that is there or not.
    for source in "$top"/python/fowlyore/*.py; do
        if "$python" -c 'import ast, sys; ast.parse(open(sys.argv[1]).read(), feature_version=(3, 8))' "$source"; then
            passed=$((passed + 1))
        else
            fail "$source isn't of Python 3.8"
        fi
    done
    unset "interpreters[$newest]"
    asked=("${!interpreters[@]}")
fi

# Fewer random texts are tried, unless a number is given, but for one run by the newest beside the older ones. The files
# that take longest come first.
processors=$(nproc)
files=(test_extension test_command test_processes test_properties test_lists)
for file in "$top"/python/tests/test_*.py; do
    file=$(basename -- "$file" .py)
    [[ " ${files[*]} " = *" $file "* ]] || files+=("$file")
done
for version in "${asked[@]}"; do
    way=$extension
    [ "${version#*.}" -ge 10 ] || way=no
    few=${FOWLYORE_RANDOM-1000}
    begin_tests "$version" "${interpreters[$version]}" "$way" "$few"
done
runs=("${asked[@]}")
if [ "$older" ]; then
    runs+=("$newest on more texts")
    begin_tests "$newest on more texts" "$python" "$extension" "${FOWLYORE_RANDOM-}"
    if [ "$extension" != no ]; then
        runs+=("$newest by ctypes")
        begin_tests "$newest by ctypes" "$python" no "${FOWLYORE_RANDOM-1000}"
    fi
fi
wait

for version in "${runs[@]}"; do
    skipped=$(sum_of "$version" '^OK (.*skipped=\([0-9]*\).*')
    [ "$skipped" -eq 0 ] || echo "not tried: tests by Python $version, of which $skipped were skipped"
    for file in "${files[@]}"; do
        said=$work/said-$version/$file
        count=$(sed -n 's/^Ran \([0-9]*\) tests\? .*/\1/p' "$said")
        if tail -n 1 "$said" | grep -q '^OK' && [ "${count:-0}" -gt 0 ]; then
            passed=$((passed + count))
        else
            tail -n 60 "$said"
            fail "$file by Python $version"
        fi
    done
done
# packaging 26.2, which the tests compare with.
[ "${FOWLYORE_PACKAGING-}" ] ||
    echo "not tried: packaging 26.2, of which FOWLYORE_PACKAGING names no folder (pip install -t DIR packaging==26.2)"

# The types of the package, which its users' checks rest on.
if [ "$older" ]; then
    :
elif ! command -v mypy >/dev/null; then
    echo "not tried: the types, by mypy, which is not on the PATH (Debian's package mypy, or pip install mypy)"
elif (cd "$top/python" && mypy --strict --cache-dir "$work/types" fowlyore) >"$work/said" 2>&1; then
    passed=$((passed + 1))
else
    tail -n 60 "$work/said"
    fail "the types, by mypy --strict"
fi

# The wheel, by an interpreter's own pip without an index, in an environment with nothing else and from another folder: README's
# first answer.
try_wheel() {
    local room=$work/clean-$1 first=$top/examples/first
    cd "$work" && "$2" -m venv --without-pip "$room" && "$2" -m pip -q --python "$room/bin/python" install --no-index "$wheel" || return
    "$room/bin/fowlyore" check "$first/requirements.txt" --environment "$first/environment.json" \
        --candidates "$first/candidates.txt" >"$room/out" && cmp "$room/out" "$first/expected.txt" || return
    "$room/bin/python" -c 'import fowlyore; print(*fowlyore.installed())' >"$room/out" && grep -q "^('fowlyore', '" "$room/out"
}

if ! wheel=$(REQS_LIBRARY=$library "$top/pack" wheel "$work") || [ ! -f "$wheel" ]; then
    fail "the wheel was not made"
    finish
fi
for version in "${asked[@]}"; do
    if ! "${interpreters[$version]}" -m pip --version 2>/dev/null | grep -qE '^pip (2[3-9]|[3-9][0-9])'; then
        echo "not tried: the wheel by Python $version, whose pip is older than 23 or missing (pip install --upgrade pip)"
    elif try_wheel "$version" "${interpreters[$version]}"; then
        passed=$((passed + 1))
    else
        fail "the wheel by Python $version, installed into an environment of its own"
    fi
done

[ -z "$older" ] || finish

# Packaging's tests over this package.
suite=$top/out/packaging_suite
if ! compgen -G "$suite/source/packaging-*" >/dev/null; then
    echo "not tried: packaging's own tests, which are not there (python3 tests/packaging_suite/run.py fetches them)"
else
    python3 "$top/tests/packaging_suite/run.py" --library "$library" "$suite" >"$work/said" 2>&1
    counts=$(sed -n 's/^packaging: \([0-9]*\) passed, \([0-9]*\) failed$/\1 \2/p' "$work/said" | tail -n 1)
    [ "${counts#* }" = 0 ] || { tail -n 60 "$work/said"; fail "packaging's own tests"; }
    passed=$((passed + ${counts:+${counts% *}} + 0))
fi
finish
