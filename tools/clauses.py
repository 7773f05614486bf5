#!/usr/bin/env python3
"""Prints the public functions of crates with their clauses, as they stand in the sources.

    clauses.py CRATE..

What a crate promises is what these clauses say; `docs/DEFINITIONS.md` says what the words in them mean. Public types and
constants are left out. Of a trait's impl only the clauses are printed, since the trait has the signature.
"""

import os
import re
import sys
import textwrap

TOP = os.path.dirname(os.path.dirname(os.path.abspath(__file__)))
sys.path.insert(0, os.path.join(TOP, "gate"))
from clauses import Source, Types
from crates import Crates


class Shown(Source):
    """A source whose functions and clauses are kept as they are written."""

    def laid_out(self, at, text):
        """The text as it is laid out in the file, four blanks from the left."""
        column = at - self.plain.rfind("\n", 0, at) - 1
        lines = textwrap.dedent(" " * column + text).splitlines()
        return textwrap.indent("\n".join(it.rstrip() for it in lines if it.strip()), "    ")

    def hold_code(self, name, at, text, scope, before=()):
        if re.match(r"[^({]*\bfn\b", text):
            self.found.append((name, self.line(at), self.laid_out(at, text)))

    def hold_clause(self, name, at, text, scope):
        self.found.append((name.split(".")[0], self.line(at), textwrap.indent(self.laid_out(at, text), "    ")))

    def hold(self, name, at, text, imports):
        pass


def sources(crate):
    found = []
    for path in crate.text_files():
        if path.startswith(os.path.join(crate.folder, "src")) and path.endswith(".rt"):
            with open(path, encoding="utf-8") as file:
                found.append(Shown(crate, path, file.read(), None))
    types = Types(found, set())
    for it in found:
        it.types = types
    return found


def shown(source):
    """Each public function's name and place, and then its signature and clauses."""
    before = None
    for name, line, text in source.read():
        if name != before:
            yield f"\n{source.module}::{name}  ({os.path.relpath(source.path, TOP)}:{line})"
        yield text
        before = name


def main(words):
    crates = Crates()
    if not words or any(it not in crates for it in words):
        print(__doc__, file=sys.stderr)
        return 2
    for crate in words:
        for line in (line for source in sources(crates[crate]) for line in shown(source)):
            print(line)
    return 0


if __name__ == "__main__":
    sys.exit(main(sys.argv[1:]))
