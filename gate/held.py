#!/usr/bin/env python3
"""Sees that what is stated is what tests/held.txt says: each definition, each part of a public contract, and each claim of a document.

    held.py

A proof says no more than its statement, so none may change unseen. The list has each definition of specs/ and each
part of a public contract, or of a proved caller's among the tests (statements.py and clauses.py say which), by name, with the
sum of its text and of the imports of the names in it; so it has what documents say is proved (claims.py), which handles functions may take (HANDLES: one that
may wait need not end), and each other name under which a definition is passed on. One that differs, is new or is gone fails;
`./test --accept NAME..` takes it. A change of comments or of layout is none: so a file fails of which the toolchain reads
other words than stand there without what is a comment here. The last line is `N passed, M failed`, a name each.
"""

import os
import re
import subprocess
import sys

from claims import claims
from clauses import Source, apart, contracts, declared_in_specs
from crates import TOP, Crates, kit_folder
from lists import Found, Listed, judged
from statements import USE, chunks, definitions, imported, in_one_line, passed_on, specs_of, stated, without_comments, words_of

HEAD = "Each definition, each part of a public contract and each claim of a document, with the sum of what it says: docs/GATE.md."
# What `rattle fmt --tokens` says of a file, and of a word: where it begins and ends, and its kind.
OF_FILE = re.compile(rb"^file \d+\n", re.M)
OF_WORD = re.compile(rb"^\d+ (\d+) (\d+) (\w+)", re.M)
# What it says of the bracket that begins a clause.
OF_CLAUSE = re.compile(rb'^.* Head "(?:requires|ensures)"\n(?:.* Head "[^{].*\n)*\d+ (\d+) \d+ Head "{"', re.M)
QUOTED = (b"Literal", b"Text")


def held():
    """The list of statements, beside those of the tree."""
    crates, found = Crates(), {}
    taken = declared_in_specs(crates)
    of_crates = []
    for crate in crates.values():
        of_crates += [*definitions(crate), *renamed(crate), *contracts(crate, taken[crate.name], crate.name.endswith("_tests"))]
    for it in [*of_crates, *claims(), *handles()]:
        # (two of one name are told apart by their order)
        name, at = it.name, 2
        while name in found:
            name, at = f"{it.name}~{at}", at + 1
        found[name] = Found(it.sum, it.place)
    return Listed("tests/held.txt", HEAD, found, lambda name: re.match(r"\w+", name)[0])


def handles():
    """The handles that functions may take, as a statement."""
    path = os.path.join(TOP, "HANDLES")
    if os.path.isfile(path):
        with open(path, encoding="utf-8") as file:
            yield stated("HANDLES", path, 1, in_one_line(file.read()), [])


def renamed(crate):
    """What a crate's specs/ pass on under another name, each with that name."""
    for module, path, text in specs_of(crate):
        lines = [it for it in enumerate(without_comments(text).split("\n"), 1) if it[1].strip()]
        for chunk, _ in chunks(lines, 0, []):
            use = USE.match(words_of(chunk))
            for name, of in imported(use["path"], use["names"], use["alias"]) if use and use["shown"] else ():
                if name != of.rpartition(".")[2]:
                    yield stated(f"{module}.{passed_on(of)}.as", path, chunk[0][0], f"pub use {of} as {name}", [])


def misread(crates):
    """Each file of which the toolchain reads other words than are read here, where a comment may be taken for what it isn't."""
    files = [(crate, it) for crate in crates.values() for it in crate.text_files() if it.endswith((".rt", ".antt"))]
    words = [os.path.join(kit_folder(), "bin", "rattle"), "fmt", "--tokens", *(os.path.relpath(it, TOP) for _, it in files)]
    ran = subprocess.run(words, cwd=TOP, stdin=subprocess.DEVNULL, capture_output=True)
    told = OF_FILE.split(ran.stdout)[1:]
    if ran.returncode or len(told) != len(files):
        yield f"the toolchain doesn't read these texts: {ran.stderr.decode(errors='replace').strip()}"
        return
    for (crate, path), rows in zip(files, told):
        with open(path, "rb") as file:
            text = file.read()
        here = apart(text.decode())[0] if path.endswith(".rt") else without_comments(text.decode())
        if "".join(here.split()) != "".join(words_told(text, rows)):
            yield f"{os.path.relpath(path, TOP)}: the toolchain reads other words there than the gate, which takes a comment for none or none for one"
        source = Source(crate, path, text.decode(), None) if path.endswith(".rt") else None
        for it in OF_CLAUSE.findall(rows) if source else ():
            at = len(text[: int(it)].decode())
            if not source.clause_at(at):
                yield f"{os.path.relpath(path, TOP)}:{source.line(at)}: the toolchain reads a clause there, and the gate none"


def words_told(text, rows):
    """The words that the toolchain reads in a text, those in quotes without blanks; a docstring that a macro may read is none here."""
    for begin, end, kind in OF_WORD.findall(rows):
        word = text[int(begin) : int(end)].decode()
        if kind not in QUOTED:
            yield word
        elif kind == QUOTED[1] or not word.startswith(("//", "/*")):
            yield "".join(word.split())


def main():
    try:
        return judged(held(), misread(Crates()))
    except ValueError as error:
        print(f"FAILED: {error}\n0 passed, 1 failed")
        return 1


if __name__ == "__main__":
    sys.exit(main())
