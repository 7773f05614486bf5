#!/usr/bin/env python3
"""Compares lists by `reqs same`, of which it is known by how they are made whether they require the same.

    pairs.py COUNT [--seed N] [--program PATH]
    pairs.py --round N [--seed N] [--program PATH] [--folder FOLDER]

A round is a list of up to 8 lines, made at random, and a second one that is made of it by an edit. Some edits keep what
the list requires: lines in another order, a line split in two by a marker and its opposite, a line that never applies,
names and extras in another spelling and order, a specifier doubled, a blank line, another pre-release where one is named.
Others change it: a version that the lines of a package take is taken no more, a pre-release is named elsewhere or no more,
an extra is asked for besides, a package that no other line names is left out where its line sometimes applies, or asked for
besides. `same` has to say yes or no accordingly, the lists in either
order; and yes for each list beside itself in another order, and beside its normal text where it has one. Where it says
no, environments in which the marker holds are looked for, among six and those that are drawn from its text: in each of
them the lists have other rows of the package by `check`, with all candidates or with some one candidate alone.

The rounds of a seed are the same on each machine. The second form runs the one round of that number, shows what is said,
and leaves its inputs in the folder. PROGRAM is ../crates/reqs_cli/out/reqs_cli where none is named. The last line is
`pairs: N passed, M failed`, a round each. The line before it counts the differences for whose marker no environment was
drawn: there is none where a marker asks two things of one member. It fails too where an edit never came, where no list or
each had a normal text, or where most differences had no environment.
"""

import itertools
import itertools
import json
import os
import re
import shutil
import subprocess
import sys
import tempfile
from collections import Counter

import alike
from alike import Draw, EXTRAS, NAMES, SPACES
from drawn import drawn

MOST_LINES = 8
# So many clauses of a marker have an environment drawn.
MOST_CLAUSES = 4
EVERYWHERE = "all environments"
# Versions that tell apart what the edits make of specifiers.
PLAIN = ("0.5", "1.0", "1.0.1", "1.4", "1.4.2", "1.5", "1.5.1", "1.9rc2", "2", "2.0.dev1", "2.0.1", "3.1", "3.2a1", "1!1.0", "1!1.1.dev4")
# Specifiers that are compared: no `===`, and no post-release beside `<` or `>`.
SIGNS = ("==", "==", "!=", "<", "<=", ">", ">=", ">=", "==.*", "!=.*", "~=")
# Markers of which one holds where the other doesn't. Numbers of versions alone are compared.
OPPOSITES = (
    ("os_name == 'nt'", "os_name != 'nt'"),
    ("sys_platform == 'linux'", "'linux' != sys_platform"),
    ("python_full_version < '3.9'", "python_full_version >= '3.9'"),
    ("python_version <= \"3.10\"", "python_version > '3.10'"),
    ("extra == 'dev'", "extra != 'Dev'"),
    ("'x86' in platform_machine", "'x86' not in platform_machine"),
    ("platform_system == 'Linux' and extra == 'x'", "platform_system != 'Linux' or extra != 'x'"),
)
NEVER = ("os_name == 'a' and os_name == 'b'", "python_full_version < '3.8' and python_full_version >= '3.9'",
         "extra == 'x' and extra != 'X'", "sys_platform < 'a' and 'b' < sys_platform")
# Specifiers, and others beside them that exclude nothing more and name a pre-release.
NAMING = ((">=1.0", "!=0.9.dev0"), (">=1.0", ">=0.5a1"), ("<2", "!=2.0rc1"), ("<2", "<=3.0b1"), ("==1.*", ">=1.dev0"),
          ("~=1.4", "!=1.4.dev3"), ("!=1.5.*", "!=1.5rc1"))
# Packages that no line of a list names but by an edit.
OTHERS = ("alone", "zz.top", "Base_9")


class Line:
    """A line's parts: a package, extras, specifiers and a marker, or an empty text."""

    def __init__(self, name, extras, specifiers, marker):
        self.name, self.extras, self.specifiers, self.marker = name, extras, specifiers, marker

    def with_marker(self, marker):
        joined = f"({self.marker}) and ({marker})" if self.marker else marker
        return Line(self.name, self.extras, self.specifiers, joined)

    def text(self, draw):
        text = draw.one(spellings(self.name))
        if self.extras:
            text += f"{draw.one(SPACES)}[{draw.one((',', ', ')).join(self.extras)}]"
        if self.specifiers:
            text += draw.one(SPACES) + draw.one((",", ", ")).join(self.specifiers)
        return text + (f" ;{draw.one(SPACES)}{self.marker}" if self.marker else "")


def normal_name(name):
    return re.sub(r"[-_.]+", "-", name).lower()


def spellings(name):
    """A package's name in some spellings."""
    return next((it for it in NAMES if normal_name(it[0]) == normal_name(name)), (name, name.upper()))


def specifier(draw):
    sign = draw.one(SIGNS)
    releases = [it for it in alike.RELEASES if "." in it] if sign == "~=" else alike.RELEASES
    release = draw.one(releases)
    if sign.endswith("*"):
        return f"{sign[:2]}{release}.*"
    part = draw.one(alike.PUBLIC_PARTS) if draw.is_in(20) else ""
    # (a post-release beside a bound is refused)
    if sign in "<>" and re.search(r"post|-1", part):
        part = ""
    return sign + draw.one(SPACES) + release + part


def marker(draw):
    kind = draw.below(10)
    if kind < 3:
        return ""
    text = draw.one(draw.one(OPPOSITES)) if kind < 6 else alike.marker(draw, 1)
    # (a `#` behind a blank begins a comment, also in a marker's text)
    return "" if re.search(r"\s#", text) else text


def list_of_lines(draw):
    lines = []
    for _ in range(draw.below(MOST_LINES + 1)):
        specifiers = [specifier(draw) for _ in range(draw.one((0, 1, 1, 2)))]
        lines.append(Line(draw.one(NAMES)[0], draw.some(EXTRAS, 2) if draw.is_in(25) else [], specifiers, marker(draw)))
    return lines


# ---- edits that keep what a list requires

def in_another_order(draw, lines):
    return draw.shuffled(lines)


def split_in_two(draw, lines):
    at, pair = draw.below(len(lines)), draw.one(OPPOSITES)
    return [*lines[:at], *(lines[at].with_marker(it) for it in draw.shuffled(pair)), *lines[at + 1:]]


def with_one_that_never_applies(draw, lines):
    name = draw.one((*OTHERS, *(it.name for it in lines)))
    return [*lines, Line(name, draw.some(EXTRAS, 1), [specifier(draw)], draw.one(NEVER))]


def with_a_specifier_doubled(draw, lines):
    at = draw.below(len(lines))
    it = lines[at]
    doubled = draw.shuffled([*it.specifiers, *it.specifiers[:1]])
    return [*lines[:at], Line(it.name, it.extras, doubled, it.marker), *lines[at + 1:]]


def with_extras_apart(draw, lines):
    """A line's extras on lines of their own, beside it."""
    at = draw.below(len(lines))
    it = lines[at]
    apart = [Line(it.name, [extra.upper()], [], it.marker) for extra in it.extras]
    return draw.shuffled([*lines[:at], Line(it.name, [], it.specifiers, it.marker), *lines[at + 1:], *apart])


def with_specifiers_apart(draw, lines):
    at = draw.below(len(lines))
    it = lines[at]
    apart = [Line(it.name, [], [one], it.marker) for one in it.specifiers]
    return [*lines[:at], Line(it.name, it.extras, [], it.marker), *lines[at + 1:], *apart]


def with_another_prerelease(draw, lines):
    """One more pre-release where one is named: on the line that names it, or on one of its own."""
    name, (base, early), place = draw.one(OTHERS), draw.one(NAMING), draw.one(("", *draw.one(OPPOSITES)))
    first, named = Line(name, draw.some(EXTRAS, 1), [base], place), Line(name, [], [">=0.1.dev1"], place)
    if draw.is_in(50):
        more = [named, Line(name, [], [early], place).with_marker(draw.one(draw.one(OPPOSITES)))]
    else:
        more = [Line(name, [], draw.shuffled([*named.specifiers, early]), place)]
    return [*lines, first, named], [*lines, first, *more]


# ---- edits that change it: where some package is asked for with other extras, points or pre-releases

def with_another_package(draw, lines):
    pair = draw.one(OPPOSITES)
    return [*lines, Line(draw.one(OTHERS), [], [specifier(draw)] if draw.is_in(50) else [], draw.one(("", *pair)))]


def with_an_extra(draw, lines):
    """An extra that no line asks for, wherever the line's marker holds."""
    at = sometimes(draw, lines)
    it = lines[at]
    return [*lines[:at], Line(it.name, [*it.extras, "brand_new"], it.specifiers, it.marker), *lines[at + 1:]]


def with_a_bound_moved(draw, lines):
    """A package of one line alone whose specifiers take other versions."""
    name, (old, new) = draw.one(OTHERS), draw.one(BOUNDS)
    place = draw.one(("", *draw.one(OPPOSITES)))
    extras = draw.some(EXTRAS, 1)
    return [*lines, Line(name, extras, [old], place)], [*lines, Line(name, extras, [new], place)]


def with_a_prerelease_elsewhere(draw, lines):
    """A package of one line that always applies, and beside it perhaps one that names a pre-release and excludes nothing."""
    name, (base, early), extras = draw.one(OTHERS), draw.one(NAMING), draw.some(EXTRAS, 1)
    places = draw.shuffled([None, "", *draw.one(OPPOSITES)])[:2]
    left, right = ([] if it is None else [Line(name, [], [early], it)] for it in places)
    return [*lines, Line(name, extras, [base], ""), *left], [*lines, Line(name, extras, [base], ""), *right]


# Specifiers that don't take the same versions.
BOUNDS = ((">=1", ">1"), (">=1.0", ">=1.0.1"), ("<2", "<=2"), ("==1.*", "==1.0.*"), ("==1.0", "==1.0.1"), ("!=1.5", "!=1.5.*"),
          ("~=1.4", "~=1.4.2"), (">=1", ">=1.0a1"), ("<2.0.dev0", "<2.0a1"), ("==1!1.0", "==1.0"))


def sometimes(draw, lines):
    """A line that applies in some environment with some extras, as one of no marker or of a simple one."""
    simple = {"", *(it for pair in OPPOSITES for it in pair)}
    return draw.one([at for at, it in enumerate(lines) if it.marker in simple])


def has_sometimes(lines):
    simple = {"", *(it for pair in OPPOSITES for it in pair)}
    return any(it.marker in simple for it in lines)


KEEPING = (in_another_order, split_in_two, with_one_that_never_applies, with_a_specifier_doubled, with_extras_apart,
           with_specifiers_apart, with_another_prerelease)
CHANGING = (with_another_package, with_an_extra, with_a_bound_moved, with_a_prerelease_elsewhere)
# Edits that ask nothing of the lines that there are.
BESIDE = (in_another_order, with_one_that_never_applies, with_another_prerelease, with_another_package, with_a_bound_moved,
          with_a_prerelease_elsewhere)


class Round:
    """The two lists of a round, and whether they require the same."""

    def __init__(self, seed, number):
        draw = Draw(seed, number)
        lines = list_of_lines(draw)
        self.is_kept = draw.is_in(50)
        edits = KEEPING if self.is_kept else CHANGING
        if not lines or not self.is_kept and not has_sometimes(lines):
            edits = [it for it in edits if it in BESIDE]
        self.edit = draw.one(edits)
        found = self.edit(draw, lines)
        left, right = found if isinstance(found, tuple) else (lines, found)
        if self.is_kept and draw.is_in(50):
            right = draw.one((split_in_two, with_a_specifier_doubled))(draw, right) if right else right
        self.left, self.right = left, right
        self.texts = {"LEFT": laid_out(draw, left), "RIGHT": laid_out(draw, draw.shuffled(right))}
        self.texts["TURNED"] = laid_out(draw, draw.shuffled(left))
        self.draw, self.environments = draw, [alike.members(draw) for _ in range(6)]
        self.extras = [draw.some(EXTRAS, 3) for _ in self.environments]
        names = {normal_name(it.name) for it in (*left, *right)}
        self.texts["C"] = "".join(f"{name} {version}\n" for name in sorted(names) for version in PLAIN)
        for at, it in enumerate(self.environments):
            self.texts[f"E{at}"] = json.dumps(it)

    def write(self, folder):
        for name, text in self.texts.items():
            with open(os.path.join(folder, name), "w", encoding="utf-8") as file:
                file.write(text)


def laid_out(draw, lines):
    return alike.laid_out(draw, [it.text(draw) for it in lines])


# What `normal` may refuse.
NO_NORMAL = re.compile(rb"reqs: LEFT: line [0-9]+: (?:single quote|deprecated key|version bound)\n")
NO = re.compile(rb"no\n([a-z0-9-]+)\n([^\n]+)\n")


class Play:
    """What is said of a round's lists: what was seen, and what is wrong."""

    def __init__(self, program, made, folder):
        self.program, self.made, self.folder = program, made, folder
        self.seen, self.said = Counter([made.edit.__name__]), []

    def ask(self, *words):
        ended = alike.ran(self.program, [*words], self.folder)
        self.said.append((words, ended))
        return ended

    def fault(self):
        yes, made = (0, b"yes\n", b""), self.made
        found = self.ask("same", "LEFT", "RIGHT")
        turned = self.ask("same", "RIGHT", "LEFT")
        if made.is_kept:
            if found != yes or turned != yes:
                return f"the edit keeps what is required, and same says {found}, and {turned} of the lists exchanged"
        else:
            said, other = (NO.fullmatch(it[1]) if (it[0], it[2]) == (1, b"") else None for it in (found, turned))
            if not said or not other or said[1] != other[1]:
                return f"the edit changes what is required, and same says {found}, and {turned} of the lists exchanged"
            fault = self.difference_fault(said)
            if fault:
                return fault
        again = self.ask("same", "TURNED", "LEFT")
        return f"the list turned round: same says {again}" if again != yes else self.normal_fault(yes)

    def normal_fault(self, yes):
        status, text, told = self.ask("normal", "LEFT")
        if status == 2 and not text and NO_NORMAL.fullmatch(told):
            self.seen["without a normal text"] += 1
            return None
        if status or told:
            return f"normal says {(status, text, told)}"
        self.seen["normal texts"] += 1
        with open(os.path.join(self.folder, "NORMAL"), "wb") as file:
            file.write(text)
        again, same = self.ask("normal", "NORMAL"), self.ask("same", "LEFT", "NORMAL")
        if again != (0, text, b"") or same != yes:
            return f"the normal text {text}: normal says {again} of it, and same {same}"
        return None

    def difference_fault(self, said):
        """What is wrong in the environments that the marker of a difference holds in."""
        package, marker = said[1].decode(), said[2].decode()
        self.write("WHERE", "here\n" if marker == EVERYWHERE else f"here ; {marker}\n")
        found = [*self.environments_of(marker)]
        self.seen["differences in some environment" if found else "differences in none"] += 1
        for inputs in found:
            self.seen["environments of a difference"] += 1
            if not self.are_told_apart(package, inputs):
                return f"in {inputs} both lists ask the same of {package}, and same says {said[0]}"
        return None

    def environments_of(self, marker):
        """Environments and extras in which the marker holds: of the round's own, and those drawn for its clauses."""
        for at, extras in enumerate(self.made.extras):
            inputs = [f"E{at}", "C", *extras]
            if self.ask("check", "WHERE", *inputs)[1]:
                yield inputs
        tried = [] if marker == EVERYWHERE else drawn(self.made.draw, marker, self.made.environments[0])
        for number, (extras, environments) in enumerate(itertools.islice(tried, MOST_CLAUSES)):
            self.write("ES", json.dumps(environments))
            rows = self.ask("matrix", "WHERE", "ES", "C", *extras)[1].split(b"env ")[1:]
            holds = next((it for it, row in zip(environments, rows) if b"here" in row), None)
            if holds:
                self.seen["drawn from a marker"] += 1
                self.write(f"D{number}", json.dumps(holds))
                yield [f"D{number}", "C", *extras]

    def are_told_apart(self, package, inputs):
        """Whether the lists' rows of the package differ, with all candidates or with one of them alone."""
        environment, _, *extras = inputs
        for version in (None, *PLAIN):
            candidates = "C" if version is None else "ONE"
            if version:
                self.write("ONE", f"{package} {version}\n")
            said = (self.ask("check", it, environment, candidates, *extras)[1] for it in ("LEFT", "RIGHT"))
            left, right = (self.row(package, it) for it in said)
            if left != right:
                self.seen["told by a candidate alone" if version else "told by their rows"] += 1
                return True
        return False

    def write(self, name, text):
        with open(os.path.join(self.folder, name), "w", encoding="utf-8") as file:
            file.write(text)

    @staticmethod
    def row(package, text):
        form = re.compile(rf"{re.escape(package)}(?:\[[^]]*\])? \S+")
        return next((it for it in text.decode().splitlines() if form.fullmatch(it)), None)


def played(task):
    """What came of a round: how often what was seen, and a fault or nothing."""
    program, seed, number, kept = task
    made = Round(seed, number)
    folder = kept or tempfile.mkdtemp(prefix="pairs-")
    play = Play(program, made, folder)
    try:
        made.write(folder)
        fault = play.fault()
    except (OSError, subprocess.TimeoutExpired) as error:
        fault = str(error)
    finally:
        if not kept:
            shutil.rmtree(folder)
    if kept:
        for words, ended in play.said:
            print(*words, *ended, sep="\n    ")
    return play.seen, fault and f"round {number}: {made.edit.__name__}: {fault}"


# What has to come at least once, beside each edit.
WANTED = ("normal texts", "without a normal text", "differences in some environment", "differences in none", "environments of a difference",
          "drawn from a marker", "told by their rows", "told by a candidate alone")


def play_all(words):
    """Plays all rounds, and returns how many passed and failed."""
    sums, failed = alike.all_played(words, played)
    edits = [it.__name__ for it in (*KEEPING, *CHANGING)]
    told = ", ".join(f"{sums[it]} {it.replace('_', ' ')}" for it in (*edits, *WANTED))
    print(f"pairs: seed {words.seed}: {words.count} rounds: {told}")
    lacking = [f"not one was {it}" for it in (*edits, *WANTED) if not sums[it] and it != "differences in none"]
    if 4 * sums["differences in none"] > sums["differences in some environment"]:
        lacking.append("too few differences had an environment")
    for it in lacking:
        print(f"FAILED: {it}")
    return words.count - failed, failed + len(lacking)


if __name__ == "__main__":
    sys.exit(alike.command(__doc__, "pairs", played, play_all, "as it has to be"))
