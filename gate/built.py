#!/usr/bin/env python3
"""Has programs, or the library for C, laid out from the store, or proved and built, by one look at the store.

    built.py NAME..
    built.py --kept NAME..

It does what `prove.py --program NAME` does, for each in turn; with --kept it proves nothing, so that it can be run while
other crates are being proved. The status is 1 where one was not built.
"""

import os
import sys

import toolchain
from crates import TOP
from kept import prover_of
from prove import program
from prover import MARK, write


def lay_out(prover, name):
    """Lays out a program, or the library for C, that the store has, and returns a status."""
    out, entry = os.path.join(prover.crates[name].folder, "out"), prover.entry(name)
    # (an entry that can't be unpacked is taken for damaged, and removed)
    os.makedirs(out, exist_ok=True)
    if not prover.store.take(entry, out, prover.parts(name)):
        print(f"gate: the store has no {name}", file=sys.stderr)
        return 1
    write(os.path.join(out, MARK), entry)
    return program(prover, name)


def main(words):
    is_kept = words[:1] == ["--kept"]
    names, lays_out = (words[1:], lay_out) if is_kept else (words, program)
    os.chdir(TOP)
    try:
        prover = prover_of(False)
    except toolchain.Unknown as error:
        print(f"gate: gate/toolchain.py doesn't know this rt ({error}), so no store is used", file=sys.stderr)
        return 1
    return max((lays_out(prover, it) for it in names), default=0)


if __name__ == "__main__":
    sys.exit(main(sys.argv[1:]))
