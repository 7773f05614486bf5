#!/usr/bin/env bash
# Makes the library for C of the proved archive crates/reqs_c/out/libreqs_c.a: beside it libreqs.a, libreqs.so.4 and the
# hard link libreqs.so (a symbolic one in out/ `rt ci` would refuse).
#
#     pack.sh
#
# The archive asks for memory by three functions, which the toolchain's liblibc_c.a has over malloc, realloc and free.
# They are joined with it, and every name but reqs_* is made local, so that a program may have other libraries of the
# toolchain beside it. The shared library needs nothing but the C library, and its addresses are found when it is loaded.
set -eu

top=$(cd -- "$(dirname -- "$(readlink -f -- "${BASH_SOURCE[0]}")")/.." && pwd)
out=$top/crates/reqs_c/out
kit=$(dirname -- "$(rt doc)")
room=$(mktemp -d)
trap 'rm -rf "$room"' EXIT
cd "$room"
ar x "$out/libreqs_c.a"
ar x "$kit/c/liblibc_c.a" heap.pic.o
ld -r -o reqs.o ./*.o
objcopy --wildcard --keep-global-symbol='reqs_*' reqs.o
ar rcsD libreqs.a reqs.o
${CC:-cc} -shared -nostartfiles -o libreqs.so.4 -Wl,-soname,libreqs.so.4 -Wl,-z,defs -Wl,-z,now -Wl,-z,relro -Wl,-z,noexecstack \
    -Wl,--gc-sections -Wl,--build-id=none -Wl,--whole-archive libreqs.a -Wl,--no-whole-archive
strip --strip-unneeded libreqs.so.4
# (what is the same stays, so that it can be packed again while others use it)
for it in libreqs.a libreqs.so.4; do
    cmp -s "$it" "$out/$it" || mv -f "$it" "$out/$it"
done
[ "$out/libreqs.so" -ef "$out/libreqs.so.4" ] || ln -f "$out/libreqs.so.4" "$out/libreqs.so"
