#!/usr/bin/env python3
"""Compares `reqs covers` on random lists with what is read of them here, by the rules alone.

    covered.py COUNT [--seed N] [--program PATH]
    covered.py --round N [--seed N] [--program PATH] [--folder FOLDER]

A round is a lock of up to 6 lines and requirements of up to 5, on three packages, with extras, specifiers `>=`, `<`, `==`
and `!=` of whole numbers, and markers of one variable and one extra. Half of the locks are made of the requirements: lines
left out, moved, made narrower, or asked for elsewhere. Here each list is evaluated under each valuation that its markers can
tell apart, and ranges are sets of points: of each number its developmental releases, itself, and what comes after it. So it
is known whether the lock covers the requirements, and if not, of which package first, at which first pair of sets of lines
that apply together, and by which lines; the marker that is printed has to hold exactly where that pair applies, and the
object in JSON has to say the same.

The rounds of a seed are the same on each machine. The second form runs the one round of that number, and leaves its inputs
in the folder. PROGRAM is ../crates/reqs_cli/out/reqs_cli where none is named. The last line is `covered: N passed, M failed`,
a round each. It fails too where no round or each was covered, or where no place was everywhere or none was elsewhere.
"""

import itertools
import json
import os
import shutil
import subprocess
import sys
import tempfile
from collections import Counter

import alike
import objects
from alike import Draw

PACKAGES, EXTRAS, NUMBERS = ("a", "b", "b-c"), ("e", "f", "g"), range(1, 5)
SIGNS = (">=", ">=", "<", "==", "!=")
# Points of versions: of each number those before it, itself, and those after it.
POINTS = frozenset(itertools.product(range(6), "-=+"))
# What a marker can ask, and the values that these tell apart.
ATOMS = ("os_name == 'x'", "os_name != 'x'", "os_name == 'y'", "os_name != 'y'", "extra == 'm'", "extra != 'm'")
VALUES = ("w", "x", "xx", "y", "z")
EVERYWHERE = "all environments"


class Asked:
    """The extras that are asked for, which a marker compares with a name."""

    def __init__(self, *names):
        self.names = names

    def __eq__(self, name):
        return name in self.names

    def __ne__(self, name):
        return name not in self.names


VALUATIONS = [{"os_name": value, "extra": extra} for value in VALUES for extra in (Asked(), Asked("m"))]


def holds(marker, valuation):
    # (a marker is read by Python alone, and has names, texts, comparisons, `and` and `or`)
    return not marker or marker == EVERYWHERE or bool(eval(marker, {"__builtins__": {}}, dict(valuation)))


def points(sign, number):
    """The points that a specifier has: `<` has none of its number's developmental releases."""
    below = {it for it in POINTS if it[0] < number}
    own = {(number, "=")}
    return {">=": POINTS - below - {(number, "-")}, "<": below, "==": own, "!=": POINTS - own}[sign]


class Line:
    """A line's parts: a package, extras, specifiers as pairs, and a marker or none."""

    def __init__(self, name, extras, specifiers, marker):
        self.name, self.extras, self.specifiers, self.marker = name, extras, specifiers, marker

    def text(self):
        extras = f"[{','.join(self.extras)}]" if self.extras else ""
        specifiers = ",".join(f"{sign}{number}" for sign, number in self.specifiers)
        return f"{self.name}{extras}{specifiers}" + (f" ; {self.marker}" if self.marker else "")

    def points(self):
        return POINTS.intersection(*(points(*it) for it in self.specifiers))


def marker(draw):
    kind = draw.below(10)
    if kind < 4:
        return ""
    if kind < 7:
        return draw.one(ATOMS)
    joined = f" {draw.one(('and', 'or'))} ".join(draw.shuffled(ATOMS)[: 2 + draw.below(2)])
    return joined if kind < 9 else f"({joined}) {draw.one(('and', 'or'))} {draw.one(ATOMS)}"


def line(draw):
    specifiers = [(draw.one(SIGNS), draw.one(NUMBERS)) for _ in range(draw.one((0, 1, 1, 2)))]
    return Line(draw.one(PACKAGES), draw.some(EXTRAS, 2) if draw.is_in(30) else [], specifiers, marker(draw))


def locked(draw, lines):
    """A lock that is made of lines: most are asked for there too, by a line that says more, some less or elsewhere."""
    made = []
    for it in draw.shuffled(lines):
        if draw.is_in(10):
            continue
        extras = [*it.extras, *draw.some(EXTRAS, 1)] if draw.is_in(60) else it.extras[1:]
        specifiers = it.specifiers if draw.is_in(85) else it.specifiers[1:]
        more = [(draw.one(SIGNS), draw.one(NUMBERS))] if draw.is_in(30) else []
        made.append(Line(it.name, extras, [*specifiers, *more], it.marker if draw.is_in(70) else draw.one(("", marker(draw)))))
    return [*made, *(line(draw) for _ in range(draw.below(2)))]


class Round:
    """The lists of a round."""

    def __init__(self, seed, number):
        draw = Draw(seed, number)
        self.lines = [line(draw) for _ in range(draw.below(6))]
        self.lock = locked(draw, self.lines) if draw.is_in(50) else [line(draw) for _ in range(draw.below(7))]

    def write(self, folder):
        for name, lines in (("LOCK", self.lock), ("REQS", self.lines)):
            with open(os.path.join(folder, name), "w", encoding="utf-8") as file:
                file.writelines(f"{it.text()}\n" for it in lines)

    def applying(self, package, valuation):
        """Of each list the numbers of the lines that apply to a package."""
        return tuple(tuple(at for at, it in enumerate(lines) if it.name == package and holds(it.marker, valuation))
                     for lines in (self.lock, self.lines))

    def is_covered(self, sets):
        mine, theirs = ([lines[at] for at in numbers] for lines, numbers in zip((self.lock, self.lines), sets))
        if not theirs or not mine:
            return not theirs
        has, asked = ({extra for it in lines for extra in it.extras} for lines in (mine, theirs))
        inner, outer = (POINTS.intersection(*(it.points() for it in lines)) for lines in (mine, theirs))
        return asked <= has and inner <= outer

    def wanted(self):
        """The first package that isn't covered and the pair of sets where it isn't, or None."""
        for package in sorted({it.name for it in self.lines}):
            found = {sets for sets in (self.applying(package, it) for it in VALUATIONS) if not self.is_covered(sets)}
            if found:
                return package, min(found, key=lambda sets: self.order(package, sets))
        return None

    def order(self, package, sets):
        """A pair's place among all: by the lock's lines and then by the others, those that apply first."""
        return [[at not in numbers for at, it in enumerate(lines) if it.name == package]
                for lines, numbers in zip((self.lock, self.lines), sets)]


def fault_of(program, made, folder, seen):
    """What is wrong with what is said of a round's lists, or None."""
    text, line = (alike.ran(program, ["covers", "LOCK", "REQS", *words], folder) for words in ([], ["--format", "json"]))
    wanted = made.wanted()
    if wanted is None:
        seen["covered"] += 1
        said = (0, b"yes\n", b""), (0, b'{"covers":true}\n', b"")
        return None if (text, line) == said else f"the lock covers the lines, and covers says {text} and {line}"
    package, sets = wanted
    told = text[1].decode().splitlines()
    if (text[0], text[2], len(told)) != (1, b"", 4) or told[:2] != ["no", package]:
        return f"the lock does not cover {package}, and covers says {text}"
    seen["everywhere" if told[2] == EVERYWHERE else "elsewhere"] += 1
    for it in VALUATIONS:
        if holds(told[2], it) != (made.applying(package, it) == sets):
            return f"the first pair that isn't covered is {sets}, and covers says {text}, which is other under {it}"
    if told[3] != ",".join(str(at + 1) for at in sets[1]):
        return f"the lines {sets[1]}, from 0, apply there, and covers says {text}"
    place = None if told[2] == EVERYWHERE else told[2]
    answer = {"covers": False, "lines": [at + 1 for at in sets[1]], "marker": place, "package": package}
    return None if line == (1, objects.line_of(answer).encode(), b"") else f"covers says {text} as text, and {line} as JSON"


def played(task):
    """What came of a round: how often what was seen, and a fault or nothing."""
    program, seed, number, kept = task
    made, seen = Round(seed, number), Counter()
    folder = kept or tempfile.mkdtemp(prefix="covered-")
    try:
        made.write(folder)
        fault = fault_of(program, made, folder, seen)
    except (OSError, subprocess.TimeoutExpired, SyntaxError, NameError) as error:
        fault = repr(error)
    finally:
        if not kept:
            shutil.rmtree(folder)
    return seen, fault and f"round {number}: {fault}"


WANTED = ("covered", "everywhere", "elsewhere")


def play_all(words):
    """Plays all rounds, and returns how many passed and failed."""
    sums, failed = alike.all_played(words, played)
    print(f"covered: seed {words.seed}: {words.count} rounds: {', '.join(f'{sums[it]} {it}' for it in WANTED)}")
    lacking = [f"not one was {it}" for it in WANTED if not sums[it]]
    for it in lacking:
        print(f"FAILED: {it}")
    return words.count - failed, failed + len(lacking)


if __name__ == "__main__":
    sys.exit(alike.command(__doc__, "covered", played, play_all, "as it has to be"))
