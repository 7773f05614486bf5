#!/usr/bin/env python3
"""Measures `reqs check` beside a native program on lists of many shapes, each with its targets; then beside Python's
packaging, and `reqs matrix` beside `reqs check`.

    beside.py [PROGRAM] --native PATH [--only SHAPE,..] [--runs N] [--instructions] [--write [--native-is TEXT]]

PROGRAM is crates/reqs_cli/out/reqs_cli where none is named (`./build` makes it). A native program is called as
`PATH bench REQUIREMENTS ENVIRONMENT CANDIDATES` and prints the rows. Both have to print the same. The shapes:

    plain-N, full-N     the workload of workload.py with N candidates and a tenth as many lines
    packages, shuffled  900,000 lines `pK==1.0`, each of a package of its own, and as many candidates, in order or not
    one-package         20,000 lines `pip!=K.5` of one package, and 20,000 candidates that rise
    one-line            160,000 such specifiers in one line; the native program is run once
    equal               100,000 candidates `pip 1.0`
    crlf, comments      plain-100000 with CRLF, or with a comment, at the end of each line
    versions, texts, extras, both, real
                        20,000 lines, each with a marker of its own: a version of Python, a text, an extra, a version and an
                        extra; or one of those of workload.py
    posts, locals       n lines `pip<N.post1`, or `pip!=K.5+cpu`, and n candidates that rise: 16,000 may take at most six
                        times as long as 4,000, natively or not
    packaging-plain, packaging-full
                        plain-100000 and full-100000 beside packaging, the one that packaging_check.py finds
    matrix-1, matrix-1000
                        `matrix` in so many environments, of 1,000 lines and 10,000 candidates, beside as many `check`, of
                        which at most 20 are run; the peak beside that of one

Times are the least wall times of several runs of the whole process, fewer where one takes seconds, of `matrix` processor
times, peaks the most memory that one held; instructions are those that `valgrind --tool=callgrind` counts, of the shapes that take under a second natively. The
exit status is 1 where other rows are printed, or a target is missed. With `--write` the table goes to bench/README.md, where
the rows are right.
"""

import argparse
import json
import os
import random
import re
import subprocess
import sys
import tempfile
import time

HERE = os.path.dirname(os.path.abspath(__file__))
sys.dont_write_bytecode = True
sys.path.insert(0, HERE)
import figures
import matrix
from run import PACKAGING, peak, timed
from workload import ENVIRONMENT, MARKERS, make_workload

PACKAGES, ONE, MEMBERS, MARKED, EQUAL, SEED = 900_000, 20_000, 160_000, 20_000, 100_000, 7
# After so many ms no more runs are begun than these few.
LONG, FEW = 15_000, 3
# Two sizes of a shape, and how many times as long the greater may take.
SIZES, TIMES = (4_000, 16_000), 6
# A shape's targets: how many times the native time, and the native peak, it may take.
PLAIN, FULL, MANY, SINGLE, EVEN, OWN = (0.75, 0.8), (0.85, 0.8), (0.8, 0.8), (0.05, 1.0), (1.0, 1.0), (0.8, 1.0)
# Targets beside packaging, and of `matrix` beside as many `check`, by the number of environments.
BESIDE_PACKAGING, MATRIX = (0.04, 0.2), {1: (1.3, 2.0), 1_000: (0.02, 2.0)}
# The shapes that take so long natively that they are run once, and those whose instructions aren't counted.
ONCE = {"one-line"}
UNCOUNTED = {*ONCE, "one-package", "packages", "shuffled", "plain-700000", "full-700000"}
BEGIN, END = "<!-- bench/beside.py -->\n", "<!-- end -->\n"


def workload(candidates, full=False, line_end="\n"):
    requirements, _, offered = make_workload(candidates // 10, candidates, SEED, full)
    return requirements.replace("\n", line_end), offered.replace("\n", line_end)


def packages(shuffled):
    numbers = list(range(PACKAGES))
    if shuffled:
        random.Random(SEED).shuffle(numbers)
    requirements = "".join(f"p{it}==1.0\n" for it in numbers)
    if shuffled:
        random.Random(SEED + 1).shuffle(numbers)
    return requirements, "".join(f"p{it} 1.0\n" for it in numbers)


def one_package(specifier, version, number, joint="\npip", candidates=None):
    members = [specifier.format(it) for it in range(number)]
    random.Random(SEED).shuffle(members)
    return f"pip{joint.join(members)}\n", "".join(f"pip {version.format(it)}\n" for it in range(candidates or number))


def marked(marker):
    return "".join(f"foo ; {marker(it)}\n" for it in range(MARKED)), "foo 1.0\n"


def version(at):
    return f"python_full_version != '{at % 100}.{at}'"


# By name what makes the lines and the candidates, and the targets.
SHAPES = {
    **{f"plain-{it}": (lambda it=it: workload(it), PLAIN) for it in (10_000, 100_000, 700_000)},
    **{f"full-{it}": (lambda it=it: workload(it, True), FULL) for it in (10_000, 100_000, 700_000)},
    "packages": (lambda: packages(False), MANY),
    "shuffled": (lambda: packages(True), (0.9, 0.8)),
    "one-package": (lambda: one_package("!={}.5", "{}.0", ONE), SINGLE),
    "one-line": (lambda: one_package("!={}.5", "{}.0", MEMBERS, ",", ONE), SINGLE),
    "equal": (lambda: ("pip>=1\n", "pip 1.0\n" * EQUAL), EVEN),
    "crlf": (lambda: workload(100_000, line_end="\r\n"), EVEN),
    "comments": (lambda: workload(100_000, line_end="  # a comment\n"), EVEN),
    "versions": (lambda: marked(version), OWN),
    "texts": (lambda: marked(lambda it: f"os_name != 'x{it}'"), OWN),
    "extras": (lambda: marked(lambda it: f"extra == 'x{it}'"), OWN),
    "both": (lambda: marked(lambda it: f"{version(it)} and extra == 'x{it}'"), OWN),
    "real": (lambda: marked(lambda it: MARKERS[it % len(MARKERS)]), OWN),
}
GROWING = {
    "posts": lambda number: one_package("<{}.post1", "{}.0", number),
    "locals": lambda number: one_package("!={}.5+cpu", "{}.5.1+cpu", number),
}
OF_PACKAGING = {"packaging-plain": "plain-100000", "packaging-full": "full-100000"}
OF_MATRIX = {f"matrix-{it}": it for it in MATRIX}


def write_inputs(folder, requirements, candidates):
    texts = {"requirements.txt": requirements, "environment.json": json.dumps(ENVIRONMENT), "candidates.txt": candidates}
    for name, text in texts.items():
        with open(os.path.join(folder, name), "w", encoding="utf-8", newline="") as file:
            file.write(text)
    return [os.path.join(folder, it) for it in texts]


def instructions(command):
    """The instructions of the whole process, in millions."""
    with tempfile.NamedTemporaryFile() as file:
        words = ["valgrind", "--tool=callgrind", f"--callgrind-out-file={file.name}", *command]
        said = subprocess.run(words, stdin=subprocess.DEVNULL, stdout=subprocess.DEVNULL, stderr=subprocess.PIPE, check=True).stderr
    return int(re.search(rb"Collected : (\d+)", said)[1]) / 1e6


def least(command, folder, runs):
    """The least wall time in ms, and what is printed."""
    out, walls = os.path.join(folder, "rows"), []
    while len(walls) < min(runs, FEW) or len(walls) < runs and sum(walls) < LONG:
        walls.append(timed(command, out)[0])
    with open(out, "rb") as file:
        return min(walls), file.read()


def pair(ours, native, target, form):
    """Two figures, how they stand to each other, and whether the target is missed."""
    ratio = ours / native
    is_missed = target is not None and ratio > target
    return f"{ours:{form}} / {native:{form}} | {ratio:.2f}{f' (at most {target}: missed)' if is_missed else ''}", is_missed


def beside(name, heads, words, folder):
    """A shape's row of the table, whether the same rows are printed, and whether a target is missed."""
    make, target = SHAPES[name]
    runs = words.runs, 1 if name in ONCE else words.runs
    return compared(name, heads, runs, write_inputs(folder, *make()), target, words, folder)


def compared(name, heads, runs, inputs, target, words, folder):
    """The row of two programs and their runs, on some inputs."""
    commands = [[*it, *inputs] for it in heads]
    walls, said = zip(*(least(command, folder, count) for command, count in zip(commands, runs)))
    cells = [pair(*walls, target[0], ",.1f")]
    if words.instructions:
        is_counted = name in SHAPES and name not in UNCOUNTED
        cells += [pair(*map(instructions, commands), target[0], ",.0f") if is_counted else (" | ", False)]
    cells += [pair(*(peak(it) / 1024 for it in commands), target[1], ",.1f")]
    return f"| {name} | {' | '.join(it for it, _ in cells)} |", len({*said}) == 1, any(missed for _, missed in cells)


def beside_packaging(name, heads, words, folder):
    """The row of a shape beside packaging, which takes seconds."""
    inputs = write_inputs(folder, *SHAPES[OF_PACKAGING[name]][0]())
    return compared(name, [heads[0], PACKAGING], (words.runs, FEW), inputs, BESIDE_PACKAGING, words, folder)


def of_matrix(name, _heads, words, folder):
    """The row of `matrix` beside as many `check`."""
    count = OF_MATRIX[name]
    workload = matrix.many_packages(count, SEED, False)
    found = matrix.Measured(workload, workload.write(folder), words)
    found.run_matrix()
    found.run_check()
    cells = [pair(found.matrix * 1e3, found.check * 1e3, MATRIX[count][0], ",.1f")]
    cells += [(" | ", False)] if words.instructions else []
    cells += [pair(found.peak / 1024, found.check_peak / 1024, MATRIX[count][1], ",.1f")]
    return f"| {name} | {' | '.join(it for it, _ in cells)} |", not found.differs, any(missed for _, missed in cells)


def growing(name, heads, words, folder):
    """The row of a shape of two sizes, which isn't measured natively."""
    walls = [least([*heads[0], *write_inputs(folder, *GROWING[name](it))], folder, words.runs)[0] for it in SIZES]
    ratio = walls[1] / walls[0]
    is_missed = ratio > TIMES
    told = f"{walls[0]:,.1f}, {walls[1]:,.1f} | {ratio:.1f} times{f' (at most {TIMES}: missed)' if is_missed else ''}"
    blank = " | " * (4 if words.instructions else 2)
    return f"| {name}, {SIZES[0]:,} and {SIZES[1]:,} | {told} |{blank}", True, is_missed


def write(lines, words):
    """Puts the table in place of that in bench/README.md."""
    path = os.path.join(HERE, "README.md")
    with open(path, encoding="utf-8") as file:
        before, _, rest = file.read().partition(BEGIN)
    _, _, after = rest.partition(END)
    which = subprocess.run([*PACKAGING, "--which"], stdout=subprocess.PIPE, text=True, check=True).stdout.strip()
    told = f"{figures.version_of(words.program)}, {time.strftime('%Y-%m-%d', time.gmtime())}; native: {words.native_is}; {which}\n\n"
    with open(path, "w", encoding="utf-8") as file:
        file.write(f"{before}{BEGIN}{told}" + "".join(f"{it}\n" for it in lines) + f"{END}{after}")


# By the name of a shape what measures it.
KINDS = {**dict.fromkeys(SHAPES, beside), **dict.fromkeys(GROWING, growing), **dict.fromkeys(OF_PACKAGING, beside_packaging),
         **dict.fromkeys(OF_MATRIX, of_matrix)}


def read_words():
    words = argparse.ArgumentParser(description=__doc__, formatter_class=argparse.RawDescriptionHelpFormatter)
    program = os.path.join(HERE, "..", "crates", "reqs_cli", "out", "reqs_cli")
    words.add_argument("program", nargs="?", default=os.path.normpath(program))
    words.add_argument("--native", metavar="PATH", required=True)
    words.add_argument("--only", metavar="SHAPE,..", default=",".join(KINDS))
    words.add_argument("--runs", metavar="N", type=int, default=15)
    words.add_argument("--instructions", action="store_true")
    return figures.read_words(words)


def main():
    words = read_words()
    heads = [[words.program, "check"], [words.native, "bench"]]
    names = ["ms", *(["M instructions"] if words.instructions else []), "MiB"]
    lines = [f"| shape | {' | times | '.join(names)} | times |", "|---" * (2 * len(names) + 1) + "|"]
    print(*lines, sep="\n", flush=True)
    differs = misses = False
    for name in words.only.split(","):
        with tempfile.TemporaryDirectory(prefix="reqs-bench-") as folder:
            line, is_same, is_missed = KINDS[name](name, heads, words, folder)
        lines.append(line)
        differs, misses = differs or not is_same, misses or is_missed
        print(line + ("" if is_same else " OTHER ROWS"), flush=True)
    if words.write and not differs:
        write(lines, words)
    return 1 if differs or misses else 0


if __name__ == "__main__":
    sys.exit(main())
