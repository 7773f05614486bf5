#!/usr/bin/env python3
"""Measures `reqs matrix` beside `reqs check` for each environment, and beside Python's packaging.

    matrix.py [PROGRAM] [--full] [--only NAME,..] [--sizes N,..] [--runs N] [--seed N] [--folder FOLDER] [--write]

PROGRAM is crates/reqs_cli/out/reqs_cli where none is named. The workload of workload.py, of 1,000 lines and
10,000 candidates, is asked for in N environments; of reqs and packaging only what --only names is measured. Then come
single packages: one of 12 lines of which any may hold without the others, which are 4,096 cases; one of 20 lines of
which no two hold together, which are 21; and one of 10,000 candidates, of which only the least is admitted.

Times are processor seconds of whole processes, the least of several runs. `check` is run in at most 20 of the
environments, and packaging in 1 and in 20; for more they are reckoned from these. All have to print the same. The exit status is
1 where they don't, or where a target is missed. With `--write` what was measured goes to bench/figures.json, if that is 0.
"""

import argparse
import json
import os
import random
import re
import subprocess
import sys
import tempfile

HERE = os.path.dirname(os.path.abspath(__file__))
sys.dont_write_bytecode = True
sys.path.insert(0, HERE)
import figures
from run import PACKAGING, numbers, peak, timed
from workload import ENVIRONMENT, make_environments, make_workload

LINES, CANDIDATES = 1000, 10000
# In so many environments at most are `check` and packaging run.
SAMPLE = 20
FLAGS = "abcdefghijkl"


class Workload:
    """A name, the texts of lines and candidates, and environments."""

    def __init__(self, name, lines, candidates, environments):
        self.name, self.lines, self.candidates, self.environments = name, lines, candidates, environments

    def write(self, folder):
        """Writes the inputs, an environment a file too, and returns the folder."""
        place = os.path.join(folder, f"{self.name.replace(' ', '-')}-{len(self.environments)}")
        os.makedirs(place, exist_ok=True)
        texts = {"requirements.txt": self.lines, "candidates.txt": self.candidates}
        texts["environments.json"] = json.dumps(self.environments, indent=2) + "\n"
        texts["sample.json"] = json.dumps([self.environments[it] for it in self.sample()])
        texts["first.json"] = json.dumps(self.environments[:1])
        for it in self.sample():
            texts[f"environment-{it}.json"] = json.dumps(self.environments[it], indent=2) + "\n"
        for name, text in texts.items():
            with open(os.path.join(place, name), "w", encoding="utf-8") as file:
                file.write(text)
        return place

    def sample(self):
        """The places of the environments in which `check` is run."""
        count = len(self.environments)
        return sorted({it * count // SAMPLE for it in range(SAMPLE)} if count > SAMPLE else range(count))


def many_packages(count, seed, full):
    lines, _, candidates = make_workload(LINES, CANDIDATES, seed, full)
    return Workload("many packages", lines, candidates, make_environments(count, seed))


def independent(count, seed):
    """A line for each letter that may stand in a text, which refuses one of the candidates."""
    rng = random.Random(seed)
    lines = [f"foo!={at}.0 ; '{letter}' in platform_version\n" for at, letter in enumerate(FLAGS)]
    candidates = [f"foo {at}.0\n" for at in range(len(FLAGS))]
    texts = ["".join(it for it in FLAGS if rng.random() < 0.5) for _ in range(count)]
    environments = [{**ENVIRONMENT, "platform_version": it} for it in texts]
    return Workload("12 independent lines", "".join(lines), "".join(candidates), environments)


def exclusive(count, seed):
    """A line for each text that a key may have."""
    rng = random.Random(seed)
    lines = [f"foo=={at}.0 ; os_name == 'a{at:02}'\n" for at in range(1, 21)]
    candidates = [f"foo {at}.0\n" for at in range(1, 21)]
    environments = [{**ENVIRONMENT, "os_name": f"a{rng.randrange(22):02}"} for _ in range(count)]
    return Workload("20 exclusive lines", "".join(lines), "".join(candidates), environments)


def the_least(count, seed):
    """Candidates of which the lines admit the least alone, some lines in some environments."""
    lines = ["foo>=1\n", *(f"foo<1.5 ; python_version >= '3.{it}'\n" for it in range(7, 15))]
    candidates = [f"foo {at}.0\n" for at in range(1, CANDIDATES + 1)]
    return Workload("the least of 10,000", "".join(lines), "".join(candidates), make_environments(count, seed))


def read(path):
    with open(path, "rb") as file:
        return file.read()


def sections(text):
    """What is said of each environment."""
    parts = re.split(rb"^env ([0-9]+)\n", text, flags=re.M)
    if parts[0] or [int(it) for it in parts[1::2]] != list(range(1, len(parts) // 2 + 1)):
        sys.exit("matrix.py: the environments are not numbered in turn")
    return parts[2::2]


class Measured:
    """What the programs took for a workload, in processor seconds and KiB, and whether they said the same."""

    def __init__(self, workload, place, words):
        self.workload, self.place, self.words = workload, place, words
        self.matrix = self.check = self.packaging = self.peak = self.check_peak = None
        self.count, self.differs = len(workload.environments), False
        self.said = None

    def least(self, command, name, runs):
        """The least processor seconds of a command, and what it prints."""
        out = os.path.join(self.place, name)
        took = min(timed(command, out)[1] for _ in range(runs)) / 1e3
        return took, read(out)

    def inputs(self, environments):
        names = ["requirements.txt", environments, "candidates.txt"]
        return [os.path.join(self.place, it) for it in names]

    def run_matrix(self):
        command = [self.words.program, "matrix", *self.inputs("environments.json")]
        self.matrix, text = self.least(command, "matrix.rows", self.words.runs)
        self.peak = max(peak(command) for _ in range(3))
        self.said = sections(text)
        self.differs = len(self.said) != self.count

    def run_check(self):
        took, sample = 0, self.workload.sample()
        for at in sample:
            command = [self.words.program, "check", *self.inputs(f"environment-{at}.json")]
            # (of one environment the time itself is looked at)
            runs = self.words.runs if self.count == 1 else 3
            seconds, text = self.least(command, "check.rows", runs)
            took += seconds
            self.differs = self.differs or text != self.said[at]
        self.check = took * self.count / len(sample)
        self.check_peak = max(peak(command) for _ in range(3))

    def run_packaging(self):
        head, runs = [*PACKAGING, "--matrix"], max(1, self.words.runs // 5)
        sample = self.workload.sample()
        took, text = self.least([*head, *self.inputs("sample.json")], "packaging.rows", runs)
        wanted = [self.said[at] for at in sample] if self.said else sections(text)
        self.differs = self.differs or sections(text) != wanted
        if self.count > len(sample):
            first, _ = self.least([*head, *self.inputs("first.json")], "packaging.rows", runs)
            took = first + (took - first) / (len(sample) - 1) * (self.count - 1)
        self.packaging = took

    def row(self):
        def shown(value, form="{:.3f}"):
            return "-" if value is None else form.format(value)

        mib = ["-" if it is None else f"{it / 1024:.1f}" for it in (self.peak, self.check_peak)]
        is_reckoned = " (reckoned)" if self.count > SAMPLE else ""
        ratio = f"{self.check / self.matrix:.1f}" if self.check and self.matrix else "-"
        return (
            f"| {self.workload.name} | {self.count:,} | {shown(self.matrix)} | {mib[0]} "
            f"| {shown(self.check)}{is_reckoned} | {mib[1]} | {ratio} | {shown(self.packaging)}{is_reckoned} "
            f"| {'NO' if self.differs else 'yes'} |"
        )


def measured(workload, folder, words):
    found = Measured(workload, workload.write(folder), words)
    if "reqs" in words.only:
        found.run_matrix()
        found.run_check()
    if "packaging" in words.only:
        found.run_packaging()
    print(found.row(), flush=True)
    return found


def targets(found):
    """What was aimed at, what was measured, and whether that is met."""
    for it in found:
        name, count = it.workload.name, it.count
        if name == "many packages" and count == 1:
            yield "one environment: times the time of `check`, at most 1.3", it.matrix / it.check, 1.3
        if name == "many packages" and count == 1000:
            yield "1,000 environments: share of the time of as many `check`, at most 0.02", it.matrix / it.check, 0.02
            yield "1,000 environments: times the memory of one `check`, at most 2", it.peak / it.check_peak, 2
        if name == "12 independent lines" and count == 1:
            yield "4,096 cases: seconds, under 0.2", it.matrix, 0.2


def read_words():
    words = argparse.ArgumentParser(description=__doc__, formatter_class=argparse.RawDescriptionHelpFormatter)
    program = os.path.join(HERE, "..", "crates", "reqs_cli", "out", "reqs_cli")
    words.add_argument("program", nargs="?", default=os.path.normpath(program))
    words.add_argument("--full", action="store_true", help="lines of every kind, with markers")
    words.add_argument("--only", metavar="NAME,..", default="reqs,packaging")
    words.add_argument("--sizes", metavar="N,..", type=numbers, default=[1, 10, 100, 1000])
    words.add_argument("--runs", metavar="N", type=int, default=5)
    words.add_argument("--seed", metavar="N", type=int, default=7)
    words.add_argument("--folder", metavar="FOLDER", help="where the workloads and the rows are kept")
    words = figures.read_words(words)
    words.only = words.only.split(",")
    if not set(words.only) <= {"reqs", "packaging"}:
        sys.exit("matrix.py: --only takes names of reqs, packaging")
    if "reqs" in words.only and not os.access(words.program, os.X_OK):
        sys.exit(f"matrix.py: no program at {words.program}; ./reqs --help at the top builds it")
    return words


def write(words, found, which):
    """Puts what was measured into the file of figures, by the kind of lines, the workload, the environments and the program."""
    kind, made = "full" if words.full else "plain", {}
    for it in found:
        name = f"matrix.{kind}.{it.workload.name.replace(' ', '_').replace(',', '')}.{it.count}"
        took = {"matrix": (it.matrix, it.peak), "check": (it.check, it.check_peak)} if it.matrix is not None else {}
        for command, (seconds, memory) in took.items():
            of = figures.version_of(words.program)
            made[f"{name}.{command}.cpu"], made[f"{name}.{command}.peak"] = (seconds, "s", of), (memory / 1024, "MiB", of)
        if it.packaging is not None:
            made[f"{name}.packaging.cpu"] = it.packaging, "s", which
    figures.put(made)


def main():
    words, which = read_words(), None
    if "packaging" in words.only:
        which = subprocess.run([*PACKAGING, "--which"], stdout=subprocess.PIPE, text=True, check=True).stdout.strip()
        print(f"{which}\n")
    print("| workload | environments | `matrix` s | peak MiB | `check` in each, s | peak MiB of one | check / matrix "
          "| `packaging` s | same |")
    print("|---|---|---|---|---|---|---|---|---|")
    makers = [lambda count: many_packages(count, words.seed, words.full)]
    makers += [lambda count, made=made: made(count, words.seed) for made in (independent, exclusive, the_least)]
    with tempfile.TemporaryDirectory(prefix="matrix-bench-") as room:
        folder = words.folder or room
        found = [measured(make(count), folder, words) for make in makers for count in words.sizes]
    failed = [it for it in found if it.differs]
    print()
    for name, value, most in targets(found) if "reqs" in words.only else ():
        is_met = value < most if "under" in name else value <= most
        print(f"{name}: {value:.3f}{'' if is_met else ', MISSED'}")
        failed += [] if is_met else [name]
    if words.write and not failed:
        write(words, found, which)
    return 1 if failed else 0


if __name__ == "__main__":
    sys.exit(main())
