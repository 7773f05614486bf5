#!/usr/bin/env python3
"""Proves what the store doesn't hold, and takes the rest from there.

    prove.py [--from-nothing]        all crates and tests, and runs them: what `rt ci` does
    prove.py --program NAME          a program and the crates below it: crates/NAME/out/NAME is there then; of a library for C
                                     what tools/pack.sh makes of its archive
    prove.py --libraries CRATE..     the libraries of these crates and of those below, as `rt check` takes them

What is proved is judged by `rt`'s own code, and kept in the store under the sum of all that it rests on. With
--from-nothing nothing is taken; without it a crate whose own texts are the same is proved through kept work (kept.py). The
first closes with `N passed, M failed`; how much was taken stands on standard error.
"""

import os
import subprocess
import sys

import toolchain
from crates import TOP
from kept import prover_of
from prover import LIBRARY, MARK, Chain, all_crates, archive_of, read, write

# What packs the library for C sees of the environment; `rt` sees less.
ENVIRONMENT = {**os.environ}


def program(prover, name):
    """Has a program built, or a library for C, where it isn't there, and returns a status."""
    crate = prover.crates[name]
    out, mark = os.path.join(crate.folder, "out"), prover.entry(name)
    built = os.path.join(out, archive_of(name) if crate.is_static() else name)
    if not os.path.isfile(built) or read(os.path.join(out, MARK)) != mark:
        if not Chain(prover, [name]).run() or not os.path.isfile(built):
            print(f"gate: {name} was not built", file=sys.stderr)
            return 1
        write(os.path.join(out, MARK), mark)
    # (what packs the archive is in no sum, so that is done each time)
    if crate.is_static() and subprocess.run(["bash", "tools/pack.sh"], cwd=TOP, env=ENVIRONMENT).returncode:
        print(f"gate: of the archive of {name} no library was made", file=sys.stderr)
        return 1
    return 0


def libraries(prover, names):
    chain = Chain(prover, names)
    return 0 if chain.run() and all(prover.lay_out_for_rt(it) for it in chain.crates if prover.kind(it.name) == LIBRARY) else 1


def main(words):
    mode = words[0] if words else ""
    named = words[1:]
    is_call = not named if mode in ("", "--from-nothing") else named and mode in ("--program", "--libraries")
    if not is_call:
        print(__doc__, file=sys.stderr)
        return 2
    try:
        prover = prover_of(mode == "--from-nothing")
    except toolchain.Unknown as error:
        print(f"gate: gate/toolchain.py doesn't know this rt ({error}), so no store is used", file=sys.stderr)
        return subprocess.run(["rt", "ci"], cwd=TOP).returncode if mode in ("", "--from-nothing") else 1
    unknown = [it for it in named if it not in prover.crates]
    if unknown:
        print(f"gate: crates.txt names no crate {unknown[0]}", file=sys.stderr)
        return 2
    if mode == "--program":
        return program(prover, named[0])
    return libraries(prover, named) if mode == "--libraries" else all_crates(prover)


if __name__ == "__main__":
    sys.exit(main(sys.argv[1:]))
