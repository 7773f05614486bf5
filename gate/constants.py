#!/usr/bin/env python3
"""Fails at each file of specs/ that cites a constant of the code, and at each source whose clauses do.

    constants.py

What takes its values from the code's own table is met whatever stands there, so a definition and a clause write a number as a
number, and name no module `declared.*.TheConstants`. A clause needs no import for a constant: so it has no name in capitals but
those of the integer types, as `usize.MAX`. The last line is `N passed, M failed`, a file each.
"""

import os
import re
import sys

from clauses import Source, after_brackets
from crates import TOP, Crates

COMMENT = re.compile(r"--[^\n]*")
CITED = re.compile(r"\bTheConstants\b[^\n]*")
# In a clause: a name of capitals, alone or behind a type that is no integer's.
NAMED = re.compile(r"(?<![\w.:«])[A-Z][A-Z0-9_]+\b|(?<![\w.])(?!(?:[iu](?:8|16|32|64|128|size)|char)\.)\w+\.[A-Z][A-Z0-9_]*\b")


def cited(path):
    """What a file cites of a constant of the code, or None."""
    with open(path, encoding="utf-8") as file:
        found = CITED.search(COMMENT.sub("", file.read()))
    return found.group() if found else None


def named(crate, path):
    """What a clause of a source names of a constant of the code, or None."""
    with open(path, encoding="utf-8") as file:
        source = Source(crate, path, file.read(), None)
    found = CITED.search(source.plain)
    for it in re.finditer(r"\{", source.bare):
        if source.clause_at(it.start()):
            found = found or NAMED.search(source.plain[it.start() : after_brackets(source.bare, it.start())])
    return found.group() if found else None


def is_specs(crate, path):
    return path.endswith(".antt") and os.path.relpath(path, crate.folder).startswith(f"specs{os.sep}")


def main():
    files = [(crate, path) for crate in Crates().values() for path in crate.text_files()]
    found = {path: cited(path) for crate, path in files if is_specs(crate, path)}
    found.update({path: named(crate, path) for crate, path in files if path.endswith(".rt")})
    faults = {os.path.relpath(path, TOP): of for path, of in found.items() if of}
    for name, of in faults.items():
        print(f"FAILED: {name} cites {of}")
    print(f"{len(found) - len(faults)} passed, {len(faults)} failed")
    return 1 if faults else 0


if __name__ == "__main__":
    sys.exit(main())
