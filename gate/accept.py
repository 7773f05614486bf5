#!/usr/bin/env python3
"""Takes statements as they are now into tests/held.txt, and tests into tests/names.txt, each by its name.

    accept.py NAME..

A name is one that the gate told of as new, as another or as gone; or that of a crate, a module or a file of which the
list has nothing yet. Where one of the names is none of these, none is taken and the status is 2.
"""

import sys

from held import held
from names import names


def main(words):
    if not words or any(it.startswith("-") for it in words):
        print(__doc__, file=sys.stderr)
        return 2
    lists, is_refused = [held(), names()], False
    taken = {it: [(listed, listed.named(it)) for listed in lists] for it in words}
    for word, meant in taken.items():
        if not any(isinstance(found, list) and found for _, found in meant):
            why = [found for _, found in meant if isinstance(found, str)] or [f"no list and nothing in the tree has {word}"]
            print(f"accept: {why[0]}", file=sys.stderr)
            is_refused = True
    if is_refused:
        return 2
    for listed, found in (it for meant in taken.values() for it in meant):
        for name in found if isinstance(found, list) else ():
            listed.take(name)
            print(f"{listed.path}: {name}")
    for listed in lists:
        listed.write()
    return 0


if __name__ == "__main__":
    sys.exit(main(sys.argv[1:]))
