#!/usr/bin/env bash
# Tests of the Debian packages that `./pack deb` makes: dpkg installs each into a root of its own, and what lies there runs. The
# last line is `deb: N passed, M failed`.
set -u
export LC_ALL=C.UTF-8

top=$(cd -- "$(dirname -- "$(readlink -f -- "${BASH_SOURCE[0]}")")/.." && pwd) || exit 1
source "$top/tests/counted.sh" || exit 1
work=$(mktemp -d) || exit 1
trap 'rm -rf "$work"' EXIT
made=$work/made
libraries=usr/lib/x86_64-linux-gnu
of_program=(
    usr/bin/reqs
    usr/libexec/reqs/reqs
    usr/share/bash-completion/completions/reqs
    usr/share/doc/reqs/COMMANDS.md
    usr/share/doc/reqs/copyright
    usr/share/fish/vendor_completions.d/reqs.fish
    usr/share/man/man1/reqs.1.gz
    usr/share/zsh/vendor-completions/_reqs
)
of_shared=(
    $libraries/libreqs.so.4
    usr/share/doc/libreqs4/copyright
)
of_development=(
    $libraries/libreqs.a
    $libraries/libreqs.so
    $libraries/pkgconfig/reqs.pc
    usr/include/reqs.h
    usr/share/doc/libreqs-dev/C.md
    usr/share/doc/libreqs-dev/COMMANDS.md
    usr/share/doc/libreqs-dev/copyright
)

# deb PACKAGE: its path.
deb() {
    echo "$made/$1_${version}_amd64.deb"
}

makes() {
    "$top/pack" deb "$made" >"$work/said" && version=$(dpkg-deb -f "$(head -n 1 "$work/said")" Version) || return
    { deb reqs && deb libreqs4 && deb libreqs-dev; } | cmp - "$work/said" && [ "$(find "$made" -type f | wc -l)" -eq 3 ]
}

makes_the_same() {
    mv -- "$made" "$work/first" && makes && diff -r "$work/first" "$made"
}

# A root where dpkg knows of the C library, and of nothing else.
make_root() {
    mkdir -p "$1/usr" "$1/var/lib/dpkg/"{info,updates,triggers} && : >"$1/var/lib/dpkg/info/libc6:amd64.list" || return
    cat >"$1/var/lib/dpkg/status" <<END
Package: libc6
Status: install ok installed
Maintainer: A
Architecture: amd64
Multi-Arch: same
Version: $(getconf GNU_LIBC_VERSION | cut -d' ' -f2)
Description: the C library
END
}

# dpkg_in ROOT WORDS..
dpkg_in() {
    dpkg --root="$1" --force-not-root --force-bad-path --log="$work/log" "${@:2}" >"$work/said" 2>&1 ||
        { cat "$work/said"; return 1; }
}

# installs ROOT PACKAGE..
installs() {
    local it debs=()
    for it in "${@:2}"; do
        debs+=("$(deb "$it")")
    done
    dpkg_in "$1" -i "${debs[@]}"
}

installs_alone() {
    make_root "$1" && installs "$@"
}

installs_with_the_library() {
    make_root "$work/compiles" && ! installs "$work/compiles" libreqs-dev >/dev/null &&
        grep -qF "libreqs-dev depends on libreqs4 (= $version)" "$work/said" && installs "$work/compiles" libreqs4 libreqs-dev
}

# has_files ROOT FILE..: these and no others.
has_files() {
    (cd "$1" && find usr ! -type d | sort) | cmp - <(printf '%s\n' "${@:2}" | sort)
}

# (md5sums stand in a package's information)
is_whole() {
    (cd "$1" && md5sum --quiet -c var/lib/dpkg/info/*.md5sums &&
        cut -c35- var/lib/dpkg/info/*.md5sums | sort | cmp - <(find usr -type f | sort))
}

# A package reqs of version 0.2.0 that has the library as well.
make_older() {
    local fields=("Package: reqs" "Version: 0.2.0" "Architecture: amd64" "Maintainer: A" "Description: A")
    mkdir -p "$work/of/DEBIAN" && cp -r "$work/compiles/usr" "$work/of/" || return
    printf '%s\n' "${fields[@]}" >"$work/of/DEBIAN/control" &&
        dpkg-deb --root-owner-group --build "$work/of" "$work/older.deb" >"$work/said"
}

takes_over() {
    make_older && make_root "$work/all" && dpkg_in "$work/all" -i "$work/older.deb" && installs "$work/all" libreqs4 libreqs-dev &&
        installs "$work/all" reqs && has_files "$work/all" "${of_program[@]}" "${of_shared[@]}" "${of_development[@]}"
}

# The header and the documents tell where what is installed lies, and the packages' names.
has_what_is_told() {
    local path page=$work/all/usr/share/doc/libreqs-dev/C.md
    while read -r path; do
        [ -e "$work/all$path" ] || { echo "there is no $path"; return 1; }
    done < <(grep -ohE '/usr/[A-Za-z0-9_./-]*[A-Za-z0-9]' "$work/all/usr/include/reqs.h" "$page" "$top/rust/fowlyore/README.md")
    for path in "${of_program[@]}" "${of_shared[@]}" "${of_development[@]}"; do
        grep -qF "/$path\`" "$page" || { echo "docs/C.md doesn't tell of /$path"; return 1; }
    done
    for path in reqs libreqs4 libreqs-dev; do
        grep -qF " ./dist/${path}_*.deb" "$page" || { echo "docs/C.md doesn't tell how to install $path"; return 1; }
    done
}

# The manual page names files of the program's package.
has_what_the_manual_names() {
    local path
    zcat "$work/program/usr/share/man/man1/reqs.1.gz" | grep -oE '/usr/[A-Za-z0-9_./-]*[A-Za-z0-9]' >"$work/named" || return
    while read -r path; do
        [ -e "$work/program$path" ] || { echo "there is no $path"; return 1; }
    done <"$work/named"
}

# field PACKAGE NAME VALUE
field() {
    [ "$(dpkg-deb -f "$(deb "$1")" "$2")" = "$3" ] || { dpkg-deb -f "$(deb "$1")"; return 1; }
}

# needs_libc PACKAGE FILE: the file is linked with the C library and with no other, and the package says of which version.
needs_libc() {
    local newest
    newest=$(objdump -p "$2" | grep -o 'GLIBC_[0-9.]*$' | sort -V | tail -n 1)
    [ "$(objdump -p "$2" | awk '$1 == "NEEDED" { print $2 }')" = libc.so.6 ] && field "$1" Depends "libc6 (>= ${newest#GLIBC_})"
}

# told FILE WORDS: what the shared library's package tells to others that have to do with it.
told() {
    [ "$(dpkg-deb -I "$(deb libreqs4)" "$1")" = "$2" ]
}

# The functions of the header are those that the library exports and that the package tells of.
tells_names() {
    local names=$work/names
    grep -oE '^\w+ reqs_\w+\(' "$work/compiles/usr/include/reqs.h" | sed 's/.* //; s/($//' | sort >"$names"
    [ -s "$names" ] && nm -D --defined-only "$work/runs/$libraries/libreqs.so.4" | cut -d' ' -f3 | sort | cmp - "$names" &&
        { echo "libreqs.so.4 libreqs4 #MINVER#" && sed "s/.*/ &@Base $version/" "$names"; } |
            cmp - <(dpkg-deb -I "$(deb libreqs4)" symbols)
}

has_the_librarys_name() {
    local name
    name=$(objdump -p "$work/runs/$libraries"/libreqs.so.* | awk '$1 == "SONAME" { print $2 }')
    [ -f "$work/runs/$libraries/$name" ] && field "libreqs${name##*.}" Package "libreqs${name##*.}"
}

answers() {
    local first=$top/examples/first
    cd "$work" && program/usr/bin/reqs check "$first/requirements.txt" "$first/environment.json" "$first/candidates.txt" >out &&
        cmp out "$first/expected.txt"
}

answers_through_a_link() {
    ln -s "$work/program/usr/bin/reqs" "$work/linked" && "$work/linked" --version | grep -qx "reqs $version"
}

links() {
    local usr=$work/compiles/usr
    printf '#include <reqs.h>\nint main(void) { return reqs_abi() != REQS_ABI; }\n' >"$work/main.c"
    cc -I"$usr/include" -L"$work/compiles/$libraries" -o "$work/shared" "$work/main.c" -lreqs &&
        LD_LIBRARY_PATH=$work/runs/$libraries "$work/shared" &&
        cc -I"$usr/include" -o "$work/static" "$work/main.c" "$work/compiles/$libraries/libreqs.a" && "$work/static"
}

says_so() {
    ! "$top/pack" deb "$work" 2>"$work/said" && grep -q dpkg-deb "$work/said"
}

refuses_what_is_no_library() {
    local program=$work/program/usr/libexec/reqs/reqs it=$work/none/libreqs
    mkdir "$work/none" && echo none | tee "$it.a" >"$it.so" || return
    ! REQS_PROGRAM=$program REQS_LIBRARY=$it.so "$top/pack" deb "$work/nothing" >"$work/said" 2>&1 &&
        grep -q '^pack: the names that the library exports' "$work/said" && [ ! -e "$work/nothing" ]
}

# Whether a program has no instruction that the oldest processors of x86-64 lack.
runs_on_each_processor() {
    objdump -d --no-show-raw-insn "$1" >"$work/said" && grep -qw mov "$work/said" &&
        ! grep -qwE 'popcnt|pshufb|ptest|pextr[bdq]|pinsr[bdq]|pblendw|pblendvb|pmovsxbd|pmovzxwd|pmaxuw|pcmpgtq|crc32' "$work/said"
}

# removes ROOT PACKAGE..
removes() {
    dpkg_in "$1" -r "${@:2}" && [ -z "$(find "$1" -path "$1/usr/*" ! -type d)" ]
}

if ! command -v dpkg-deb >/dev/null || ! command -v dpkg >/dev/null; then
    echo "not tried: a Debian package, since there is no dpkg (Debian's package dpkg)"
    holds "./pack deb says that there is no dpkg-deb" says_so
    finish deb
fi
holds "./pack deb makes three packages, and prints their paths" makes
[ "$failed" -eq 0 ] || finish deb
holds "the same sources make the same packages" makes_the_same
holds "dpkg installs the program alone" installs_alone "$work/program" reqs
holds "dpkg installs the shared library alone" installs_alone "$work/runs" libreqs4
holds "dpkg installs what C programs are compiled with, and not without the shared library" installs_with_the_library
holds "files of the program" has_files "$work/program" "${of_program[@]}"
holds "files of the shared library" has_files "$work/runs" "${of_shared[@]}"
holds "files that C programs are compiled with" has_files "$work/compiles" "${of_shared[@]}" "${of_development[@]}"
holds "sums of the program" is_whole "$work/program"
holds "sums of the shared library" is_whole "$work/runs"
holds "sums of what C programs are compiled with" is_whole "$work/compiles"
holds "an older package reqs gives the library up" takes_over
holds "the packages' files are those that the header and the documents tell of" has_what_is_told
holds "the package has what the manual page names" has_what_the_manual_names
holds "the program needs the C library alone" needs_libc reqs "$work/program/usr/libexec/reqs/reqs"
holds "the program runs on each x86-64 processor" runs_on_each_processor "$work/program/usr/libexec/reqs/reqs"
holds "the shared library needs the C library alone" needs_libc libreqs4 "$work/runs/$libraries/libreqs.so.4"
holds "the shared library may lie beside those for other processors" field libreqs4 Multi-Arch same
holds "what C programs are compiled with needs the same version" field libreqs-dev Depends "libreqs4 (= $version)"
holds "the package of the shared library is named after it" has_the_librarys_name
holds "the library's file shlibs" told shlibs "libreqs 4 libreqs4 (>= $version)"
holds "its file symbols has what it exports and the header declares" tells_names
holds "its file triggers" told triggers "activate-noawait ldconfig"
holds "the first answer of README.md" answers
holds "a link to the program" answers_through_a_link
holds "a C program is compiled with one package, and runs with the other" links
holds "a file that is no library is refused" refuses_what_is_no_library
holds "dpkg removes the program" removes "$work/program" reqs
holds "dpkg removes the library" removes "$work/compiles" libreqs-dev libreqs4
finish deb
