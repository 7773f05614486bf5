"""How what is linked is proved and built by an everyday run: a program, the tests of a crate, or the library for C.

A program is built by two compilers, each over the kept work. (A check keeps its verdict for a later build only where it uses
no kept work.)
"""

import copy
import os
import shutil
import tempfile
from concurrent.futures import ThreadPoolExecutor

from crates import kit_folder
from prover import PROGRAM, STATIC, archive_of


def build(crate, kind, words, work):
    """Proves a crate by these words over its kept work, builds what it is linked to, and gives a status."""
    to = f"out/{crate.name}"
    words = [*words, "--toolchain", os.path.join(kit_folder(), "toolchain")]
    if kind == STATIC:
        return crate.prove(["build", *words, "--backend", "llvm", "-o", f"out/{archive_of(crate.name)}"])
    if kind != PROGRAM:
        return build_by_llvm(crate, words, f"{to}_tests")
    if not os.listdir(work):
        return build_by_llvm(crate, words, to) or crate.compile_by("rattle", words, to)
    return build_beside(crate, words, to, work)


def build_by_llvm(crate, words, to):
    status = crate.prove(["build", *words, "--backend", "llvm", "-o", f"{to}.o"])
    is_made = not status and os.path.getsize(os.path.join(crate.folder, f"{to}.o"))
    return crate.link(f"{to}.o", to) if is_made else status


def build_beside(crate, words, to, work):
    """Has a program built by both compilers at a time, by one of them over a copy of the kept work."""
    other = copy.copy(crate)
    with tempfile.TemporaryDirectory(prefix="reqs-kept-") as room, tempfile.TemporaryFile("w+", errors="replace") as other.out:
        copied = shutil.copytree(work, os.path.join(room, "work"))
        with ThreadPoolExecutor() as pool:
            beside = pool.submit(other.compile_by, "rattle", [copied if it == work else it for it in words], to)
            status = build_by_llvm(crate, words, to)
        other.out.seek(0)
        print(other.out.read(), end="", file=crate.out, flush=True)
        return status or beside.result()
