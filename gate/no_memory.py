#!/usr/bin/env python3
"""Sees that the table of public calls that take no memory, in docs/NO_MEMORY.md, is as the signatures say.

    no_memory.py            compares the table with the sources
    no_memory.py --write    writes the table

A function gets memory by an allocator that is handed in, or by one that a value keeps which it may change or consume. So a public
call (asked.py says which these are) stands in the table where its signature names no allocator, no value that it may change, no
closure with a state of its own, and no want of memory. The last line is `N passed, M failed`, a type or a module each.
"""

import os
import re
import sys

from asked import Library, Surface
from crates import TOP, Crates

PAGE = os.path.join(TOP, "docs", "NO_MEMORY.md")
HEAD = "| Crate | Of | Calls |\n|---|---|---|\n"
TAKES = re.compile(r"\b(?:Global|AllocError|FnMut)\b|&\s*(?:'\w+\s+)?mut\b")


def rows():
    """The rows of the table by crate and type; a function of no type stands by its module."""
    libraries = {name: Library(crate) for name, crate in Crates().items()}
    found = {}
    for call in Surface(libraries).calls:
        if not TAKES.search(call.signature):
            of = call.owner or os.path.basename(call.path)[: -len(".rt")]
            found.setdefault((call.crate, of), set()).add(call.name)
    return [f"| `{crate}` | `{of}` | {', '.join(f'`{it}`' for it in sorted(names))} |\n" for (crate, of), names in sorted(found.items())]


def parts_of(page):
    """What stands before the table in the page, its rows, and what stands behind it."""
    before, head, rest = page.partition(HEAD)
    if not head:
        raise SystemExit(f"FAILED: docs/NO_MEMORY.md has no table with the head {HEAD.splitlines()[0]}\n0 passed, 1 failed")
    lines = rest.splitlines(keepends=True)
    end = next((at for at, it in enumerate(lines) if not it.startswith("|")), len(lines))
    return before + head, lines[:end], "".join(lines[end:])


def main(words):
    if words not in ([], ["--write"]):
        raise SystemExit(__doc__)
    with open(PAGE, encoding="utf-8") as file:
        before, told, behind = parts_of(file.read())
    wanted = rows()
    if words:
        with open(PAGE, "w", encoding="utf-8") as file:
            file.write(before + "".join(wanted) + behind)
        told = wanted
    faults = [f"no call is as this row says: {it}" for it in told if it not in wanted]
    faults += [f"this row is lacking: {it}" for it in wanted if it not in told]
    if not faults and told != wanted:
        faults = ["the rows stand in another order\n"]
    for it in faults:
        print(f"FAILED: docs/NO_MEMORY.md: {it}", end="")
    print(f"{len(wanted) - len(faults) if len(faults) < len(wanted) else 0} passed, {len(faults)} failed")
    return 1 if faults else 0


if __name__ == "__main__":
    sys.exit(main(sys.argv[1:]))
