#!/usr/bin/env bash
# Tests of the release that `./pack release` makes and `./pack verify` compares: the same sources make the same files in another
# folder, later and for another caller; README.md's first commands; and what is said where the toolchain is missing.
#
#     release.sh [LIBRARY PROGRAM]
#
# LIBRARY, which is libreqs.so with libreqs.a beside it, and PROGRAM are taken in place of the built ones. The last line is
# `release: N passed, M failed`.
set -u
export LC_ALL=C.UTF-8 PYTHONDONTWRITEBYTECODE=1

top=$(cd -- "$(dirname -- "$(readlink -f -- "${BASH_SOURCE[0]}")")/.." && pwd) || exit 1
source "$top/tests/counted.sh" || exit 1
work=$(mktemp -d) || exit 1
trap 'rm -rf "$work"' EXIT
first=$work/first
second="$work/it's a longer place/second"

builds() {
    "$top/build" reqs_c >"$work/said" 2>&1 </dev/null && "$top/build" reqs_cli >"$work/said" 2>&1 </dev/null && return
    cat "$work/said"
    return 1
}

as_git() {
    git -C "$1" -c user.name=A -c user.email=a@example.org -c commit.gpgsign=false "${@:2}"
}

# A repository with what packages are made of, committed.
clone() {
    mkdir -p -- "$1" && cd -- "$top" &&
        cp -r -- .gitignore LICENSE-* README.md build crates.txt docs examples gate include install pack pyproject.toml python share "$1" &&
        find "$1" -name __pycache__ -prune -exec rm -rf {} + && as_git "$1" init -q && as_git "$1" add -A && as_git "$1" commit -q -m A
}

# run FOLDER WORDS..: runs a repository's `pack`; its outputs go to the files `out` and `err`, its status to `status`.
run() {
    REQS_LIBRARY=$library REQS_PROGRAM=$program "$1/pack" "${@:2}" >"$work/out" 2>"$work/err" </dev/null
    status=$?
}

# Whether the last run was refused by one sentence with some words in it, and nothing else.
is_refused() {
    [ "$status" -eq 1 ] && [ ! -s "$work/out" ] && [ "$(wc -l <"$work/err")" -eq 1 ] && grep -q "^[a-z]*: .*$1" "$work/err" && return
    echo "status $status: $(cat "$work/out" "$work/err")"
    return 1
}

makes() {
    run "$@"
    [ "$status" -eq 0 ] || { cat "$work/err"; return 1; }
}

names_its_files() {
    printf '%s\n' "$first/dist"/{*.whl,reqs_*.deb,libreqs4_*.deb,libreqs-dev_*.deb,SHA256SUMS,README.md} | cmp - "$work/out"
}

# For another caller, at another time, by one processor.
makes_the_same() {
    local settings=(TZ=Pacific/Auckland SOURCE_DATE_EPOCH=1 GZIP=-1 DPKG_DEB_COMPRESSOR_TYPE=gzip TMPDIR="$work/group")
    mkdir -p -- "$work/group" && chmod g+s -- "$work/group" && sleep 2 && clone "$second" || return
    (umask 077 && export "${settings[@]}" && makes "$second" release "$second/dist" "$work/log") && diff -r "$first/dist" "$second/dist"
}

says_what_it_is_of() {
    local page=$first/dist/README.md line it
    line=$(sed -n 's/^`\(git ls-files [^`]*\)`.*/\1/p' "$page")
    [ "$(cd -- "$first" && bash -c "$line")" = "$sum  -" ] || return
    for it in "$sum" "$(rt version)" "12 passed, 0 failed" "was handed to" "$first"/dist/*.{whl,deb}; do
        grep -qF -- "${it##*/}" "$page" || { echo "dist/README.md doesn't say ${it##*/}"; return 1; }
    done
}

sums_hold() {
    (cd -- "$first/dist" && sha256sum --quiet -c SHA256SUMS && [ "$(ls | wc -l)" -eq 6 ] &&
        cut -c67- SHA256SUMS | sort | cmp - <(printf '%s\n' *.whl *.deb | sort))
}

keeps_its_sum() {
    as_git "$first" add -A && as_git "$first" commit -q -m B && [ "$(python3 "$first/gate/sources.py")" = "$sum" ]
}

# README.md's first commands, in an environment of their own.
first_commands() {
    local line
    python3 -m venv "$work/room" || return
    cd -- "$first" && awk '/^    \$ / { on = 1 } /^$/ && on { exit } on { print substr($0, 5) }' README.md >"$work/page"
    grep -q '^\$ pip install dist/' "$work/page" && [ "$(grep -vc '^\$' "$work/page")" -gt 0 ] || return
    while read -r line; do
        echo "\$ $line"
        env PATH="$work/room/bin:$PATH" PIP_NO_INDEX=1 PIP_QUIET=1 PIP_DISABLE_PIP_VERSION_CHECK=1 bash -c "$line" 2>&1 </dev/null
    done < <(sed -n 's/^\$ //p' "$work/page") >"$work/said"
    diff "$work/page" "$work/said"
}

verifies() {
    local it
    run "$first" verify
    for it in "$first"/dist/{*.whl,reqs_*.deb,libreqs4_*.deb,libreqs-dev_*.deb,SHA256SUMS}; do
        echo "${it##*/}: the same"
    done | cmp - "$work/out" && [ "$status" -eq 0 ]
}

# A wheel with another line in one of its files, a package that ends early, one that is not there, and no sums.
finds_what_differs() {
    local wheel deb
    cp -r -- "$first/dist" "$work/changed" && wheel=("$work/changed"/*.whl) && deb=("$work/changed"/*.deb) || return
    rm -- "$work/changed/SHA256SUMS" "${deb[1]}" && truncate -s 3000 "${deb[0]}" || return
    python3 - "${wheel[0]}" <<'END' || return
import sys, zipfile
with zipfile.ZipFile(sys.argv[1]) as wheel:
    files = {it: wheel.read(it) for it in wheel.namelist()}
files["fowlyore/lists.py"] += b"# changed\n"
with zipfile.ZipFile(sys.argv[1], "w") as wheel:
    for name, data in files.items():
        wheel.writestr(name, data)
END
    run "$first" verify "$work/changed"
    [ "$status $(grep ': the same' "$work/out")" = "1 ${deb[2]##*/}: the same" ] && grep -qF "${wheel[0]##*/}: differs" "$work/out" &&
        grep -q '^    Files .*/lists\.py differ$' "$work/out" && grep -qF "${deb[0]##*/}: differs" "$work/out" &&
        grep -q "^    it can't be unpacked" "$work/out" && grep -qxF "${deb[1]##*/}: not there" "$work/out" &&
        grep -qx 'SHA256SUMS: not there' "$work/out"
}

refuses_logs() {
    printf 'test: sources %s\n12 passed, 1 failed\n' "$sum" >"$work/bad"
    run "$first" release "$work/none" "$work/bad"
    is_refused "did not pass: 12 passed, 1 failed" || return
    printf 'test: sources %s\n12 passed, 0 failed\n' "${sum//[0-4]/5}" >"$work/bad"
    run "$first" release "$work/none" "$work/bad"
    is_refused "not of the gate on these sources" && [ ! -e "$work/none" ]
}

refuses_changes() {
    : >"$first/python/fowlyore/more.py"
    run "$first" release "$work/none"
    rm -- "$first/python/fowlyore/more.py"
    is_refused "python/fowlyore/more.py" && [ ! -e "$work/none" ]
}

refuses_another_release() {
    local it
    for it in fowlyore-0.0.1-py3-none-any.whl libreqs1_0.2.0_amd64.deb; do
        mkdir -- "$work/older" && : >"$work/older/$it"
        run "$first" release "$work/older"
        is_refused "$it is of another release" && rm -- "$work/older/$it" && rmdir -- "$work/older" || return
    done
}

refuses_what_is_large() {
    cp -- "$program" "$work/large" && head -c 6100000 /dev/urandom >>"$work/large" || return
    program=$work/large run "$first" release "$work/none"
    is_refused "more than 6000000" && [ ! -e "$work/none" ]
}

# A PATH with what is needed but for the toolchain.
leave_out_rt() {
    local it
    mkdir -- "$work/path" || return
    for it in bash sh env readlink dirname realpath mktemp mkdir rm; do
        ln -s -- "$(type -P "$it")" "$work/path/$it" || return
    done
    ln -s -- "$(python3 -c 'import sys; print(sys.executable)')" "$work/path/python3"
}

# without WORDS..: runs a command in the first repository without the toolchain, and with nothing that is built already.
without() {
    (cd -- "$first" && env -u REQS_LIBRARY -u REQS_PROGRAM PATH="$work/path" HOME="$work" "$@" >"$work/out" 2>"$work/err" </dev/null)
    status=$?
}

says_what_is_missing() {
    local it
    for it in wheel deb verify; do
        without ./pack "$it"
        is_refused "command rt is not on the PATH: .*dist/fowlyore-[^ ]*\.whl" && [ ! -e "$first/out" ] || return
    done
}

says_so_without_a_release() {
    local it
    mv -- "$first/dist" "$work/dist"
    for it in wheel deb; do
        without ./pack "$it" "$work/none"
        is_refused "command rt is not on the PATH: .* made elsewhere" || return
    done
}

pip_says_what_is_missing() {
    without "$work/room/bin/python" -m pip install --no-index --disable-pip-version-check .
    grep -h 'command rt is not on the PATH: pip install .*/dist/fowlyore-[^ ]*\.whl$' "$work/out" "$work/err" >"$work/said"
    [ "$status" -ne 0 ] && [ "$(wc -l <"$work/said")" -eq 1 ] && ! grep -q Traceback "$work/out" "$work/err" && return
    cat "$work/out" "$work/err"
    return 1
}

if ! command -v dpkg-deb >/dev/null; then
    echo "not tried: a release, since there is no dpkg-deb (Debian's package dpkg)"
    library=$top/pack program=$top/pack run "$top" deb "$work/none"
    holds "pack says that there is no dpkg-deb" is_refused dpkg-deb
    finish release
fi
if [ $# -eq 0 ]; then
    holds "the library and the program are built" builds
    [ "$failed" -eq 0 ] || finish release
fi
library=$(realpath -- "${1-$top/crates/reqs_c/out/libreqs.so}")
program=$(realpath -- "${2-$top/crates/reqs_cli/out/reqs_cli}")
holds "a repository" clone "$first"
sum=$(python3 "$first/gate/sources.py")
printf 'test: sources %s\n12 passed, 0 failed\n' "$sum" >"$work/log"
holds "a release" makes "$first" release "$first/dist" "$work/log"
[ "$failed" -eq 0 ] || finish release
holds "the files of a release are told" names_its_files
holds "the same release in another folder, later and for another caller" makes_the_same
holds "README.md of a release says what it was made from" says_what_it_is_of
holds "the sums of a release" sums_hold
holds "a committed release is none of its sources" keeps_its_sum
holds "the first commands of README.md" first_commands
holds "a release is verified" verifies
holds "what differs in a release is told" finds_what_differs
holds "a log of another gate is refused" refuses_logs
holds "sources that are not committed are refused" refuses_changes
holds "a folder with another release is refused" refuses_another_release
holds "a release that is too large is refused" refuses_what_is_large
holds "a PATH without the toolchain" leave_out_rt
holds "pip install says in a sentence what is missing" pip_says_what_is_missing
holds "pack says in a sentence what is missing" says_what_is_missing
holds "pack says so where no release is there" says_so_without_a_release
run "$first" frobnicate
holds "an unknown word" [ "$status $(wc -l <"$work/err")" = "2 1" ]
run "$first" verify ""
holds "an empty name of a folder" [ "$status $(wc -l <"$work/err")" = "2 1" ]
finish release
