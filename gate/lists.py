"""Lists of names that a reader of a change sees: what is found in the tree has to be what the list says, name by name.

A line is `NAME` or `NAME = VALUE`. Lines are sorted within their group, and a blank line stands between groups, so that
each line of a diff tells of one name alone. A new, another or a lost one is taken by its name (`./test --accept NAME..`),
and by the name of its group where the list has nothing of that group yet.
"""

import os
import re
from typing import NamedTuple

from crates import TOP

# Of a list that is far from the tree not all lines are of use.
MOST_TOLD = 100
LINE = re.compile(r"(.+?)(?: = ([0-9a-f]+))?")


class Found(NamedTuple):
    """What stands in the tree under a name: its value, or none, and the file and line."""

    value: str
    place: str


class Listed:
    """A list in a file of the repository, its first line and what is found in the tree, by name."""

    def __init__(self, path, head, found, group_of):
        self.path, self.head, self.found, self.group_of = path, head, found, group_of
        self.lines = {}
        if os.path.isfile(os.path.join(TOP, path)):
            with open(os.path.join(TOP, path), encoding="utf-8") as file:
                for line in file:
                    if line.strip() and not line.startswith("# "):
                        name, value = LINE.fullmatch(line.rstrip("\n")).groups()
                        self.lines[name] = value or ""

    def fault(self, name):
        """What is wrong with the name's line, or None."""
        if name not in self.lines:
            return f"is new, and {self.path} doesn't have it" if name in self.found else "is no such name"
        if name not in self.found:
            return f"is gone, and {self.path} has it"
        if self.lines[name] != self.found[name].value:
            return f"is another than {self.path} has"
        return None

    def faults(self):
        """Each name that differs, with its place and why."""
        for name in sorted({**self.lines, **self.found}):
            why = self.fault(name)
            if why:
                place = self.found[name].place if name in self.found else self.path
                yield f"{place}: {name} {why}"

    def same(self):
        return sum(self.fault(it) is None for it in self.found)

    def begins_with(self, names, group):
        """Those of the names that stand in a group, as a crate, a module or a file."""
        return [it for it in names if re.match(rf"{re.escape(group)}(?:\.|::|: )", it)]

    def named(self, name):
        """The names that a word means: itself, or all of a group of which the list has nothing. Otherwise a sentence."""
        if name in self.found or name in self.lines:
            return [name] if self.fault(name) else f"{name} is as {self.path} has it"
        inside = self.begins_with(self.found, name)
        if inside and self.begins_with(self.lines, name):
            return f"{name}: {self.path} has lines of that, so that each other is taken by its own name"
        return inside

    def take(self, name):
        """Takes a name as it is found."""
        self.lines.pop(name, None)
        if name in self.found:
            self.lines[name] = self.found[name].value

    def write(self):
        groups = {}
        for name in self.lines:
            groups.setdefault(self.group_of(name), []).append(name)
        with open(os.path.join(TOP, self.path), "w", encoding="utf-8") as file:
            file.write(f"# {self.head}\n")
            for group in sorted(groups):
                file.write("\n")
                for name in sorted(groups[group]):
                    file.write(f"{name} = {self.lines[name]}\n" if self.lines[name] else f"{name}\n")


def judged(listed, more=()):
    """Prints what differs, and further faults. Returns the status."""
    faults = [*listed.faults(), *more]
    for it in faults[:MOST_TOLD]:
        print(f"FAILED: {it}")
    if len(faults) > MOST_TOLD:
        print(f"FAILED: and {len(faults) - MOST_TOLD} more")
    if faults:
        print("`./test --accept NAME..` takes what is meant: docs/GATE.md")
    print(f"{listed.same()} passed, {len(faults)} failed")
    return 1 if faults else 0
