"""The lists of mutants: tests/mutants.txt, which says of each definition of specs/ what was tried, and tests/unnoticed.txt,
which has each mutant that nothing notices, and why.

A line of the first is `NAME = SUM untried` or `NAME = SUM N of M`: as the definition stood with this sum (that of
tests/held.txt) M mutants were made, N of them fit and were tried, and all of these were noticed but those that the second
has. `, K by name` tells of how many no more is known than that a proof names what they took away. A line of the second is
`NAME: MUTANT = REASON`. How many may be untried, and how many unnoticed, stands at the top of the first.
"""

import os
import re
from typing import NamedTuple

from crates import TOP
from statements import imports_of, specs_of, stated
from weakenings import definitions_of

MUTANTS, UNNOTICED = "tests/mutants.txt", "tests/unnoticed.txt"
HEADS = {
    MUTANTS: "How the mutants of each definition of specs/ were noticed, by `./test --mutants NAME..`: docs/GATE.md.",
    UNNOTICED: "Each mutant of a definition that nothing notices, and why: docs/GATE.md.",
}
NO_REASON = "open: no reason was given yet"
UNTRIED = "untried"
MOST = {UNTRIED: "most untried", "unnoticed": "most unnoticed"}
TRIED = re.compile(r"(\d+) of (\d+)(?:, (\d+) by name)?")
# Of lists that are far from the tree not all faults are of use.
MOST_TOLD = 100


class Item(NamedTuple):
    """A definition of a crate's specs/: its whole name, its file in the crate and that one's text, the sum of what it says
    and the file and line where it begins."""

    name: str
    crate: object
    file: str
    text: str
    definition: object
    sum: str
    place: str


def items_of(crates):
    """The definitions of crates by name."""
    found = {}
    for crate in crates:
        for module, path, text in specs_of(crate):
            for it in definitions_of(path, text):
                of = it.declared
                says = stated(f"{module}.{of.name}", path, of.line(), of.text(), imports_of(of.text(), it.imports))
                file = os.path.relpath(path, crate.folder)
                found[says.name] = Item(says.name, crate, file, text, it, says.sum, says.place)
    return found


def lines_of(path):
    """The lines of a list, each with its name and what it says of it, and the counts that it allows."""
    found, most = {}, {}
    if os.path.isfile(os.path.join(TOP, path)):
        with open(os.path.join(TOP, path), encoding="utf-8") as file:
            for line in file:
                name, _, said = line.rstrip("\n").partition(" =")
                allowed, colon, number = line.partition(": ")
                if colon and allowed in MOST.values():
                    most[allowed] = int(number)
                elif line.strip() and not line.startswith("# "):
                    found[name] = said.strip()
    return found, most


class Lists:
    """Both lists."""

    def __init__(self):
        self.tried, self.most = lines_of(MUTANTS)
        self.unnoticed, _ = lines_of(UNNOTICED)

    def is_new(self):
        return not self.tried

    def is_tried(self, item):
        """Whether the mutants of a definition were tried as it stands now."""
        total, words = self.tried.get(item.name, "").partition(" ")[::2]
        made = TRIED.fullmatch(words)
        return total == item.sum and bool(made) and int(made[2]) == len([*item.definition.mutants()])

    def counts(self):
        return {UNTRIED: sum(it.endswith(f" {UNTRIED}") for it in self.tried.values()), "unnoticed": len(self.unnoticed)}

    def begin(self, items):
        """Has a line for each definition where there is no list yet."""
        for it in items.values():
            made = [*it.definition.mutants()]
            self.tried[it.name] = f"{it.sum} {UNTRIED}" if made else f"{it.sum} 0 of 0"

    def take(self, item, fit, made, by_name, unnoticed):
        """Takes what came of a definition's mutants: reasons that were given stay."""
        told = f", {by_name} by name" if by_name else ""
        self.tried[item.name] = f"{item.sum} {fit} of {made}{told}"
        reasons = {name: self.unnoticed.pop(name) for name in [*self.unnoticed] if name.startswith(f"{item.name}: ")}
        self.unnoticed.update({f"{item.name}: {it}": reasons.get(f"{item.name}: {it}", NO_REASON) for it in unnoticed})

    def drop(self, names):
        """Drops the lines of definitions that are gone."""
        for lines in (self.tried, self.unnoticed):
            for it in [*lines]:
                if it.partition(": ")[0] not in names:
                    del lines[it]

    def write(self):
        counts = self.counts()
        # (what is allowed only falls here; it is raised by hand)
        self.most = {name: min(self.most.get(name, counts[of]), counts[of]) for of, name in MOST.items()}
        for path, lines in ((MUTANTS, self.tried), (UNNOTICED, self.unnoticed)):
            groups = {}
            for name in lines:
                groups.setdefault(name.partition(".")[0], []).append(name)
            with open(os.path.join(TOP, path), "w", encoding="utf-8") as file:
                file.write(f"# {HEADS[path]}\n")
                file.writelines(f"{name}: {number}\n" for name, number in self.most.items() if path == MUTANTS)
                for group in sorted(groups):
                    file.write("\n")
                    file.writelines(f"{name} = {lines[name]}\n" for name in sorted(groups[group]))

    def faults(self, items):
        """What is wrong with the lists."""
        for it in items.values():
            total, words = self.tried.get(it.name, "").partition(" ")[::2]
            if not total:
                yield f"{it.place}: {it.name} is new, and its mutants weren't tried: ./test --mutants {it.name}"
            elif total != it.sum:
                yield f"{it.place}: {it.name} is another, and its mutants weren't tried: ./test --mutants {it.name}"
            elif words != UNTRIED and not self.is_tried(it):
                yield f"{it.place}: {it.name} has other mutants than were tried: ./test --mutants {it.name}"
        for name in sorted({*self.tried} - {*items}):
            yield f"{MUTANTS}: {name} is no definition: take its line away"
        for line, reason in self.unnoticed.items():
            yield from self.faults_of_unnoticed(items, line, reason)
        for of, number in self.counts().items():
            if number > self.most.get(MOST[of], -1):
                yield f"{MUTANTS}: {number} are {of}, and `{MOST[of]}` allows {self.most.get(MOST[of], 'no number')}"

    def faults_of_unnoticed(self, items, line, reason):
        name, _, mutant = line.partition(": ")
        if name not in items or mutant not in {it.name for it in items[name].definition.mutants()}:
            yield f"{UNNOTICED}: there is no mutant {line}"
        elif self.tried.get(name, "").endswith(f" {UNTRIED}"):
            yield f"{UNNOTICED}: {name} is untried in {MUTANTS}"
        elif not reason or reason in (NO_REASON, "open:"):
            yield f"{UNNOTICED}: {line} has no reason"


def judged(items):
    """Prints what is wrong with the lists. Returns the status."""
    lists = Lists()
    faults = [*lists.faults(items)]
    for it in faults[:MOST_TOLD]:
        print(f"FAILED: {it}")
    if len(faults) > MOST_TOLD:
        print(f"FAILED: and {len(faults) - MOST_TOLD} more")
    counts = lists.counts()
    print(f"mutants: {counts[UNTRIED]} definitions are untried, {counts['unnoticed']} mutants unnoticed")
    good = sum(lists.tried.get(it.name, "").partition(" ")[0] == it.sum for it in items.values())
    print(f"{good} passed, {len(faults)} failed")
    return 1 if faults else 0
