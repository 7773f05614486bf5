#!/usr/bin/env python3
"""Sees that calls which crates lend each other are made by these alone, and passed on by nobody.

    lent.py

`Interner::conjunctions` counts what a caller asks for, so that a promise on how many there are binds all that a
crate does. A call that isn't counted is public only since other crates of trees need it. Who makes a table of
requirements gives them away, so that its answers come from the table; a copy of requirements, or a table of some
that are lent, is for the calls on whole lists; what cases require is for the key of a list; answers on parsed lists are for a command that restricts them first, and ends of
the library's calls for those that assume a marker. LENT has such calls, and modules of them, each with the crate that has it and those that
may name it; nobody may pass one on by `pub use`, and no other crate's source may name it. Nor may another import all of a crate that
lends, or the crate itself, under its own or another name: its calls could be named there unseen. Fails too where one of
those crates has no use for it. Comments, texts and clauses don't count. The last line is `N passed, M failed`, a crate
each.
"""

import functools
import os
import re
import sys

from asked import code
from clauses import rust_imports
from crates import Crates

BORROWERS = ("pep508_conjunctions", "pep508_cases", "pep508_requirement", "pep508_simplification")
LENT = {
    "pep440_version::lent": ("pep440_version", ("pep440_tests",)),
    "uncounted_conjunction": ("pep508_tree", BORROWERS),
    "root_child": ("pep508_evaluation", ("pep508_tree_ref",)),
    "root_child_count": ("pep508_evaluation", ("pep508_tree_ref",)),
    "has_float": ("pep508_environment", ("reqs_io_faults",)),
    "conjunction_of_all": ("pep508_conjunctions", ("pep508_marker_parser", "reqtable_key")),
    "copied_packages": ("reqtable_requirements", ("reqtable_packages", "reqtable_list_tests")),
    "from_lines": ("reqtable_requirements", ("reqtable_assumption", "reqtable_list_tests")),
    "packages_table": ("reqtable_packages", ("reqtable_conflicts", "reqtable_compare")),
    "reqtable_compare::lent": ("reqtable_compare", ("reqtable_key",)),
    "package_count": ("reqtable_table", ("reqs_answers", "reqtable_tests")),
    "row_among": ("reqtable_table", ("reqs_rows",)),
    "reqtable_table::lent": ("reqtable_table", ("reqs_answers", "reqs_rows", "reqtable_tests")),
    "reqs_lists::lent": ("reqs_lists", ("reqs_assuming",)),
    "reqs_c_lists::lent": ("reqs_c_lists", ("reqs_c_assuming",)),
}
USE = re.compile(r"\b(?P<shown>pub )?use (?P<tree>[^;]+);")


@functools.lru_cache(maxsize=None)
def sources(crate):
    """The code of a crate's sources, by their places in it."""
    found = {}
    for path in crate.text_files():
        if path.endswith(".rt"):
            with open(path, encoding="utf-8") as file:
                found[os.path.relpath(path, crate.folder)] = code(file.read())
    return found


@functools.lru_cache(maxsize=None)
def imports(crate):
    """What a crate's sources import: the file, whether it is passed on, the name and the path."""
    found = []
    for path, text in sources(crate).items():
        for use in USE.finditer(text):
            found += [(path, bool(use["shown"]), name, of.removeprefix("::")) for name, of in rust_imports(use["tree"])]
    return found


def is_whole(path, owner):
    """Whether an import's path is that of a crate, or of all that stands there or in a module of it."""
    return path.removesuffix("::self") == owner or path.startswith(f"{owner}::") and path.endswith("::*")


def named(name, is_owner):
    """How sources name a lent call, or a module of such calls, by its crate's name; the crate itself makes it public."""
    crate, is_module, module = name.rpartition("::")
    if not is_module:
        return rf"\b{name}\b"
    return rf"\bpub mod {module}\b" if is_owner else rf"\b{crate}::(?:\{{[^;]*\b)?{module}\b"


def fault(crate, name, owner, borrowers):
    """What is wrong with how a crate names a lent call, or None."""
    texts = sources(crate)
    word = re.compile(named(name, crate.name == owner))
    naming = [path for path, text in texts.items() if word.search(text)]
    if crate.name == owner:
        return None if naming else f"has no {name}"
    whole = [path for path, _, _, of in imports(crate) if is_whole(of, owner)]
    if whole:
        return f"imports all of {owner}, and so {name}, in {whole[0]}"
    known = {it for _, _, it, of in imports(crate) if word.search(of)}
    passing = [path for path, is_shown, _, of in imports(crate) if is_shown and (word.search(of) or known & {*of.split("::")})]
    if passing:
        return f"passes on {name} in {passing[0]}"
    if crate.name in borrowers:
        return None if naming else f"has no use for {name}"
    return f"names {name} in {naming[0]}" if naming else None


def main():
    crates, faults, passed = Crates(), [], 0
    for name, (owner, borrowers) in LENT.items():
        for crate in crates.values():
            why = fault(crate, name, owner, borrowers)
            faults += [f"{crate.name} {why}"] if why else []
            passed += not why
    print(*[f"FAILED: {it}" for it in faults], f"{passed} passed, {len(faults)} failed", sep="\n")
    return 1 if faults else 0


if __name__ == "__main__":
    sys.exit(main())
