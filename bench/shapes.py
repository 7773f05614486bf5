#!/usr/bin/env python3
"""Times `reqs` on lists whose lines, cases or specifiers are many, where a walk too much is felt.

    shapes.py [PROGRAM] [--only NAME,..] [--runs N]

PROGRAM is crates/reqs_cli/out/reqs_cli where none is named (`./build` makes it). Each list but the last four is asked of
`matrix` in one environment, with all of its extras:

    exact           32,000 lines `pip!=K.5` and then `pip===0.0`, so that no range decides a candidate, and `pip K`
    bounded         the same lines and then `pip<1`, with candidates `pip K.0+cpu` and `pip K.0.post1`
    beside-bound    32,000 lines `pip!=K.0` in an order at random and then `pip<N.post1`, which takes the range of them all
                    away, with candidates `pip K.0`: each is rejected by a line of its own
    local-cases     32,000 lines `pip!=K.0+cpu` in an order at random, with candidates `pip K.0+cpu`
    specifiers-100  12 lines of one package, an extra each, each of 100 specifiers `!=`: 4,096 cases
    specifiers-1000 the same of 1,000 specifiers
    packages        100 packages, each of 12 lines with an extra each
    interpreters    2,000 lines, each for interpreters from another version on
    plain-nested    100,000 lines without a marker, and 500 for interpreters from another version on each: 500 cases,
                    each of more than 100,000 lines
    texts-4000      4,000 lines, each for another `os_name`
    texts-100000    100,000 of them
    lists           `same` on one package's lines, which have 2,048 cases, and on others, which have 3,072: each case of
                    the one list meets each of the other
    post-releases   `check` of 32,000 lines `pip<N.post1`, which accept all of 32,000 candidates `pip K.0`
    local-parts     `check` of 32,000 lines `pip!=K.0+cpu`, with candidates `pip K.0+cpu` and `pip K.0.post1`
    equal-texts     `check` of 32,000 lines `pip===1.0` and one `pip===2.0`, with 32,000 candidates `pip 1.0`

Seconds are the least processor seconds of several runs of the whole process, MiB the most memory that one held; each is
at most what stands beside it. The exit status is 1 where one is more, or where an answer is wrong.
"""

import argparse
import json
import os
import random
import sys
import tempfile

HERE = os.path.dirname(os.path.abspath(__file__))
sys.dont_write_bytecode = True
sys.path.insert(0, HERE)
from run import peak, timed
from workload import ENVIRONMENT

MANY, FEW, SEED = 32000, 12, 7
EXTRAS = [f"e{at}" for at in range(FEW)]


class Shape:
    """Lines, candidates and extras, what has to be said of them, and the most seconds and MiB that they may take."""

    def __init__(self, lines, candidates, rows, seconds, extras=(), mib=None, options=()):
        self.lines, self.candidates, self.words = lines, candidates, [*extras, *options]
        self.rows, self.seconds, self.mib = ["env 1", *rows], seconds, mib

    def command(self, program, folder):
        """Writes the inputs into the folder, and returns the command that reads them."""
        texts = {
            "requirements.txt": self.lines,
            "environments.json": [json.dumps([ENVIRONMENT])],
            "candidates.txt": self.candidates,
        }
        return [program, "matrix", *written(folder, texts), *self.words]


class Check:
    """Lines and candidates in one environment, the row that has to be printed, and the most seconds that it may take."""

    def __init__(self, lines, candidates, row, seconds):
        self.texts = {
            "requirements.txt": lines,
            "environment.json": [json.dumps(ENVIRONMENT)],
            "candidates.txt": candidates,
        }
        self.rows, self.seconds, self.mib = [row], seconds, None

    def command(self, program, folder):
        return [program, "check", *written(folder, self.texts)]


class Lists:
    """Two lists of lines that require the same, and the most seconds that it may take to say so."""

    def __init__(self, left, right, seconds):
        self.texts = {"left.txt": left, "right.txt": right}
        self.rows, self.seconds, self.mib = ["yes"], seconds, None

    def command(self, program, folder):
        return [program, "same", *written(folder, self.texts)]


def written(folder, texts):
    """Writes lists of lines into the folder by their names, and returns the paths."""
    for name, lines in texts.items():
        with open(os.path.join(folder, name), "w", encoding="ascii") as file:
            file.writelines(f"{line}\n" for line in lines)
    return [os.path.join(folder, it) for it in texts]


def with_many_lines(last, forms, row):
    lines = [f"pip!={number}.5" for number in range(MANY)]
    candidates = [f"pip {form.format(number)}" for number in range(MANY) for form in forms]
    return Shape([*lines, last], candidates, [row], 0.3)


def with_lines_at_random(form, seconds, last=()):
    """Each line rejects one candidate, and no candidate is left."""
    numbers = list(range(MANY))
    random.Random(SEED).shuffle(numbers)
    lines = [f"pip!={form.format(number)}" for number in numbers]
    return Shape([*lines, *last], [f"pip {form.format(number)}" for number in range(MANY)], ["pip none"], seconds)


def with_post_releases():
    """Each candidate is greater than the one before it and accepted by each line."""
    lines = [f"pip<{MANY + number}.post1" for number in range(MANY)]
    return Check(lines, [f"pip {number}.0" for number in range(MANY)], f"pip {MANY - 1}.0", 0.2)


def with_local_parts():
    lines = [f"pip!={number}.0+cpu" for number in range(MANY)]
    candidates = [f"pip {number}.0{form}" for number in range(MANY) for form in ("+cpu", ".post1")]
    return Check(lines, candidates, f"pip {MANY - 1}.0.post1", 0.3)


def with_equal_texts():
    """Each candidate is accepted by each line but the last."""
    return Check(["pip===1.0"] * (MANY - 1) + ["pip===2.0"], ["pip 1.0"] * MANY, "pip none", 0.2)


def with_specifiers(count, seconds, mib=None):
    """Each line refuses the candidate of its number, so that none is left where all apply."""
    members = [",".join(f"!={at}.{number}" for number in range(count)) for at in range(FEW)]
    lines = [f"pip{members[at]} ; extra == '{extra}'" for at, extra in enumerate(EXTRAS)]
    return Shape(lines, [f"pip {at}.0" for at in range(FEW)], ["pip none"], seconds, EXTRAS, mib)


def with_packages():
    names = [f"p{at:02}" for at in range(100)]
    lines = [f"{name}!={at}.0 ; extra == '{extra}'" for name in names for at, extra in enumerate(EXTRAS)]
    candidates = [f"{name} {at}.0" for name in names for at in range(FEW + 1)]
    return Shape(lines, candidates, [f"{name} {FEW}.0" for name in names], 0.4, EXTRAS)


def with_interpreters():
    lines = [f"pip ; python_full_version >= '3.{at}'" for at in range(2000)]
    return Shape(lines, ["pip 1.0"], ["pip 1.0"], 0.05)


def with_plain_lines():
    plain = [f"pip>={at % 50}.{at % 7}" for at in range(100_000)]
    nested = [f"pip!={at}.5 ; python_full_version >= '3.{at}'" for at in range(500)]
    return Shape([*plain, *nested], ["pip 60.0"], ["pip 60.0"], 0.4, mib=80)


def with_texts(number, seconds):
    lines = [f"foo ; os_name == 'a{at}'" for at in range(number)]
    return Shape(lines, [], [], seconds, options=["--limit", str(2 * number)])


def two_lists():
    """Each line of both lists has a marker of its own and allows all that the first allows."""
    left = [f"foo>=0.{at} ; extra == 'a{at:02}'" for at in range(11)]
    right = [f"foo!=0.{at} ; extra == 'b{at:02}'" for at in range(10)]
    names = [f"foo>0.{at} ; os_name == '{name}'" for at, name in enumerate("xy")]
    return Lists(["foo>=1", *left], ["foo>=1", *right, *names], 0.3)


SHAPES = {
    "exact": lambda: with_many_lines("pip===0.0", ["{}"], "pip none"),
    "bounded": lambda: with_many_lines("pip<1", ["{}.0+cpu", "{}.0.post1"], "pip 0.0.post1"),
    "beside-bound": lambda: with_lines_at_random("{}.0", 0.3, [f"pip<{MANY}.post1"]),
    "local-cases": lambda: with_lines_at_random("{}.0+cpu", 0.6),
    "specifiers-100": lambda: with_specifiers(100, 0.1, 60),
    "specifiers-1000": lambda: with_specifiers(1000, 1),
    "packages": with_packages,
    "interpreters": with_interpreters,
    "plain-nested": with_plain_lines,
    "texts-4000": lambda: with_texts(4000, 0.1),
    "texts-100000": lambda: with_texts(100_000, 3),
    "lists": two_lists,
    "post-releases": with_post_releases,
    "local-parts": with_local_parts,
    "equal-texts": with_equal_texts,
}


def is_met(name, shape, words):
    """Prints what a list took, and returns whether it was no more than it may take, and the answer right."""
    with tempfile.TemporaryDirectory(prefix="shapes-") as folder:
        command, out = shape.command(words.program, folder), os.path.join(folder, "rows")
        took = min(timed(command, out)[1] for _ in range(words.runs)) / 1e3
        mib = peak(command) / 1024
        with open(out, encoding="ascii") as file:
            is_right = file.read().splitlines() == shape.rows
    most = "" if shape.mib is None else f"{shape.mib:6}"
    is_within = took <= shape.seconds and (shape.mib is None or mib <= shape.mib)
    said = ("" if is_within else "  MISSED") + ("" if is_right else "  WRONG")
    print(f"{name:15}  {took:9.3f}  {shape.seconds:7}  {mib:7.1f}  {most:>7}{said}", flush=True)
    return is_within and is_right


def main():
    words = argparse.ArgumentParser(description=__doc__, formatter_class=argparse.RawDescriptionHelpFormatter)
    program = os.path.join(HERE, "..", "crates", "reqs_cli", "out", "reqs_cli")
    words.add_argument("program", nargs="?", default=os.path.normpath(program))
    words.add_argument("--only", metavar="NAME,..", default=",".join(SHAPES))
    words.add_argument("--runs", metavar="N", type=int, default=3)
    words = words.parse_args()
    words.program = os.path.abspath(words.program)
    names = words.only.split(",")
    if not set(names) <= set(SHAPES):
        sys.exit(f"shapes.py: --only takes names of {', '.join(SHAPES)}")
    if not os.access(words.program, os.X_OK):
        sys.exit(f"shapes.py: no program at {words.program}; ./reqs --help at the top builds it")
    print("list               seconds  at most      MiB  at most")
    met = [is_met(name, SHAPES[name](), words) for name in names]
    return 0 if all(met) else 1


if __name__ == "__main__":
    sys.exit(main())
