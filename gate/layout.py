#!/usr/bin/env python3
"""Sees that each source, definition and proof is in the layout of `rattle fmt`, which `rt ci` wants and tells late.

And that nothing names a file as those of a function's own proof are named: what the store says of other functions and of crates above
doesn't rest on these (seen.py). The last line is `N passed, M failed`, a file each.
"""

import os
import re
import subprocess
import sys

from crates import TOP, Crates, kit_folder


# What makes a module of such a file, or names it.
OWN = r"(?:Answers|Invariants|Proof)\b"
NAMED = re.compile(rf"\bRattle\.\w+\.proofs\.(?:[^\s{{}},;]+\.)?{OWN}|\bproofs::(?:\w+::)*{OWN}")
MADE = re.compile(rf"^(?:pub )?mod {OWN}", re.M)


def names_own_proof(path):
    """What a file names as the files of a function's own proof are named, or None."""
    with open(path, encoding="utf-8") as file:
        text = file.read()
    found = NAMED.search(text) or f"{os.sep}proofs{os.sep}" in path and MADE.search(text)
    return found.group() if found else None


def main():
    files = [it for crate in Crates().values() for it in crate.text_files() if it.endswith((".rt", ".antt"))]
    words = [os.path.join(kit_folder(), "bin", "rattle"), "fmt", "--check", *(os.path.relpath(it, TOP) for it in files)]
    ran = subprocess.run(words, cwd=TOP, stdout=subprocess.PIPE, stderr=subprocess.STDOUT, errors="replace")
    failed = len(re.findall(r" is not in the layout$", ran.stdout, re.M))
    if ran.returncode:
        print(*ran.stdout.splitlines(), "`rt fmt` in its crate's folder lays a file out", sep="\n")
        failed = failed or 1
    named = {os.path.relpath(it, TOP): of for it in files for of in [names_own_proof(it)] if of}
    print(*(f"FAILED: {name} names what is a function's own proof: {of}" for name, of in named.items()), sep="\n", end="\n" if named else "")
    failed += len(named)
    print(f"{len(files) - failed} passed, {failed} failed")
    return 1 if failed else 0


if __name__ == "__main__":
    sys.exit(main())
