#!/usr/bin/env python3
"""The gate: all that has to pass before a change is taken.

    gate.py                    proves what the store doesn't hold, and takes the rest from there
    gate.py --from-nothing     takes nothing from the store, and fills it
    gate.py --release          the same, and what is left out fails
    gate.py --wrong [CRATE..]  each wrong edit of these crates and their mutants that were tried before; or all, which takes a day
    gate.py --mutants [NAME..] the mutants of definitions by crate, module or name, or of those that weren't tried as they stand
    gate.py --faults           plants faults, and sees that the gate fails at each
    gate.py --accept NAME..    takes statements and tests that are new, others or gone into the lists of them

Each part closes with a line `N passed, M failed`, or with two. The last line is that of their sums; the status is 0 where
M is 0, and 2 where the words are others. Before it stands what was left out, for want of what this machine doesn't have.
Parts that read texts are run side by side, beside the proofs; so are those that run programs, each once these are proved.
"""

import json
import os
import re
import resource
import shutil
import subprocess
import sys
import threading
import time
from concurrent.futures import ThreadPoolExecutor

import accept
import keys
import seen
import verdicts
from crates import TOP, Crates, toolchain_sum
from faults import FIT, OF_PROOFS, OF_TEXTS, groups_of
from sources import sources
from store import Store

CLOSING = re.compile(r"^(?:[a-z]+: )?(\d+) passed, (\d+) failed$", re.M)
# How the proofs say that a crate is proved.
PROVED = re.compile(r"^rt: (\w+) proved$")
# How many parts that run programs are run at a time.
AT_A_TIME = 8
# How a part says that it left something out, for want of what the machine may have another time.
LEFT_OUT = re.compile(r"^(?:[a-z]+\.sh: left out|not tried): (.*)", re.M)
NOTHING, RELEASE = "--from-nothing", "--release"
# What is run where one part is asked for.
SCRIPTS = {"--wrong": (["wrong.py"], ["mutants.py", "--again"]), "--mutants": (["mutants.py"],), "--faults": (["faults.py"],)}
QUESTIONS = "questions"
# What of tests/ the parts read that run programs.
OF_REQS = ("alike.py", "cli.sh", "counted.sh", "covered.py", "documented.py", "drawn.py", "ends.c", "ends.py", "help.txt", "install.sh",
           "numerals.py", "objects.py", "once.py", "pages", "pairs.py", "refuse.c", "refused.py", "refused.sh", "rows.py", "runs.json", "runs.py", "sizes.py",
           "try.sh")
OF_C = ("c", "c.py", "c.sh", "calls.py", "fuzz.py", "objects.py", "refuse.c", "runs.json", "runs.py")


class Part:
    """A part of the gate: its name, its words, the programs and files that its verdict rests on, if it is kept, programs that
    it runs besides, and how many lines it closes with. Of programs that it `sees` the verdict rests on the contracts below
    alone (seen.py). One that `fills` gives way to others, since none waits for it. One with counts of tests/least.txt passes as
    many at least, and one for each check of its script that tests/names.txt has. One that has a count there under its own name
    passes as many where it leaves nothing out."""

    def __init__(self, name, words, programs=(), rests_on=(), runs=(), closings=1, sees=(), fills=False, counts=()):
        self.name, self.words, self.programs, self.rests_on, self.closings = name, words, programs, rests_on, closings
        self.runs, self.sees, self.fills, self.counts = {*programs, *runs}, sees, fills, counts

    def entry(self, crates):
        """The name of its verdict in the store, or None where it is tried each time."""
        if not self.rests_on:
            return None
        programs = [*(keys.of_proof(crates, it) for it in self.programs), *(seen.by(crates, it) for it in self.sees)]
        return f"{keys.summed((self.name, toolchain_sum(), programs, verdicts.of_part(self.words, self.rests_on)))}.part"

    def missing(self):
        """What it rests on and isn't there."""
        return [it for it in self.rests_on if not os.path.exists(os.path.join(TOP, it))]

    def least(self):
        """How many pass of it at least."""
        if not self.counts:
            return 1
        checks = [it for it in lines_of("names.txt") if it.startswith(f"{self.words[-1]}: ")]
        return len(checks) + sum(counted()[it] for it in self.counts)

    def whole(self):
        """How many pass of it at least where it leaves nothing out."""
        return max(self.least(), counted().get(self.name, 1))


def counted():
    """The counts of tests/least.txt, by name."""
    told = (it.rsplit(" ", 1) for it in lines_of("least.txt") if not it.startswith("#"))
    return {name: int(count) for name, count in told}


def lines_of(name):
    """The lines of a file of tests/ that say something."""
    with open(os.path.join(TOP, "tests", name), encoding="utf-8") as file:
        return [it for it in file.read().splitlines() if it]


def parts(more):
    """The parts that read texts, that which proves, and those that then run programs; all but the second are run side by side."""
    python = [sys.executable]
    of_reqs = ("examples", "reqs", "build", "install", "share", "try", *(f"tests/{it}" for it in OF_REQS))
    # (that its answers are right the command line says)
    of_try = ("build", "crates.txt", "crates/reqs_cli/src", "crates/reqs_command/src", "examples/spelling", "tests/help.txt", "tests/try.sh", "try")
    of_c = ("build", "docs/C.md", "gate/prove.py", "include", "tools")
    licences = ("LICENSE-APACHE", "LICENSE-BSD")
    of_pack = (*licences, "build", "examples", "gate/prove.py", "include", "pack", "tools")
    of_python = (*of_pack, "README.md", "docs/DIFFERENCES.md", "docs/PYTHON.md", "pyproject.toml", "python", "tests/packaging_suite",
                 "tests/python.sh", "tests/refuse.c")
    of_release = (*of_pack, ".gitignore", "README.md", "crates.txt", "docs", "gate", "install", "pyproject.toml", "python", "share",
                  "tests/counted.sh", "tests/release.sh")
    of_deb = (*of_pack, "docs/C.md", "docs/COMMANDS.md", "install", "rust/fowlyore/README.md", "share", "tests/counted.sh",
              "tests/deb.sh")
    of_rust = (*of_c, *licences, "rust", "tests/rust.sh", "tests/rust")
    of_index = ("bench/workload.py", "build", "gate/prove.py", "examples/index", "python", "tests/index.py", "tools")
    asked = [f"crates/{QUESTIONS}/{it}" for it in ("data", "stdout")]
    return [
        Part("layout", [*python, "gate/layout.py"]),
        Part("wrong edits fit", [*python, "gate/wrong.py", "--texts"]),
        Part("planted faults fit", [*python, "gate/faults.py", FIT]),
        Part("calls and least counts", [*python, "gate/asked.py"]),
        Part("constants in definitions", [*python, "gate/constants.py"]),
        Part("statements held", [*python, "gate/held.py"]),
        Part("mutants tried", [*python, "gate/mutants.py", "--listed"]),
        Part("figures", [*python, "bench/figures.py", "--check"]),
        Part("tests by name", [*python, "gate/names.py"]),
        Part("lent calls", [*python, "gate/lent.py"]),
        Part("list of files", [*python, "tools/files.py", "--check"]),
        Part("calls without memory", [*python, "gate/no_memory.py"]),
        Part("one version", [*python, "gate/versions.py"]),
    ], Part("proofs and wrong edits", [*python, "gate/together.py", *more], closings=2), [
        Part("command line", ["bash", "tests/cli.sh"], ["reqs_cli"], [*of_reqs, "README.md", "docs"],
             counts=("runs", "objects", "documented", "sizes", "ends", "numerals")),
        Part("answers compared", [*python, "tests/alike.py", "1000"], ["reqs_cli"], of_reqs, fills=True),
        Part("lists compared", [*python, "tests/pairs.py", "500"], ["reqs_cli"], of_reqs, fills=True),
        Part("lists covered", [*python, "tests/covered.py", "1000"], ["reqs_cli"], of_reqs, fills=True),
        Part("each marker once", [*python, "tests/once.py"], ["reqs_cli"], of_reqs),
        Part("a first answer", ["bash", "tests/try.sh"], [], of_try),
        Part("installing", ["bash", "tests/install.sh"], ["reqs_cli"], of_reqs),
        Part("refused memory", ["bash", "tests/refused.sh"], ["reqs_cli", QUESTIONS], [*of_reqs, *asked], fills=True),
        Part("library for C", ["bash", "tests/c.sh"], ["reqs_c"], [*of_c, "examples", *(f"tests/{it}" for it in OF_C)]),
        Part("Python package", ["bash", "tests/python.sh"], ["reqs_c"], of_python, fills=True, counts=("Python package",)),
        # (that answers are right the parts above say of each program)
        Part("older Pythons", ["bash", "tests/python.sh", "--older"], [], of_python, ["reqs_c"], sees=("reqs_c",), fills=True,
             counts=("Python package",)),
        Part("lists in pieces", [*python, "tests/index.py"], ["reqs_c", "reqs_cli"], of_index),
        Part("Debian package", ["bash", "tests/deb.sh"], ["reqs_c", "reqs_cli"], of_deb),
        Part("release", ["bash", "tests/release.sh"], [], of_release, ["reqs_c", "reqs_cli"], sees=("reqs_c", "reqs_cli")),
        Part("Rust crate", ["bash", "tests/rust.sh"], [], of_rust, ["reqs_c"], sees=("reqs_c",)),
        Part("faults in texts", [*python, "gate/faults.py", OF_TEXTS], [], of_faults(OF_TEXTS), ["reqs_cli"]),
        Part("faults in proofs", [*python, "gate/faults.py", OF_PROOFS], ["underline"], of_faults(OF_PROOFS)),
    ]


def of_faults(kind):
    """What the verdict rests on that the gate fails at each fault of a kind."""
    faults = [it for group in groups_of(kind) for it in group]
    return ["gate", *sorted({it.path for it in faults} | {it.words[0] for it in faults})]


def run(part, show):
    """Runs a part and shows what it says. Returns what passed and failed, and what was left out, a sentence each."""
    said = []
    how = {"stdin": subprocess.DEVNULL, "stdout": subprocess.PIPE, "stderr": subprocess.STDOUT, "errors": "replace"}
    with subprocess.Popen([*(["nice"] if part.fills else []), *part.words], cwd=TOP, **how) as ran:
        for line in ran.stdout:
            said.append(line)
            show(f"    {line}")
    closings = CLOSING.findall("".join(said))[-part.closings :]
    if len(closings) < part.closings:
        show(f"test: {part.name} ended with status {ran.returncode} and without its closing line\n")
        return 0, 1, []
    good, bad = (sum(int(it[at]) for it in closings) for at in (0, 1))
    if bad == 0 and (ran.returncode or any(it[0] == "0" for it in closings)):
        show(f"test: {part.name} ended with status {ran.returncode}, {good} passed and none failed: that is no pass\n")
        bad = 1
    return good, bad, LEFT_OUT.findall("".join(said))


def judged(part, crates, store, show):
    """What passed and failed of a part, and what it left out; it isn't run where the store has the verdict that nothing
    failed."""
    began = time.monotonic()
    show(f"test: {part.name}\n")
    if part.missing():
        show(f"test: {part.name}: 0 passed, 1 failed, since it rests on what isn't there: {', '.join(part.missing())}\n")
        return 0, 1, []
    entry = part.entry(crates)
    kept = verdict_of(store.verdict(entry)) if entry else None
    if kept and kept[0] >= least_of(part, kept[1]):
        show(f"    {kept[0]} passed, taken from the store\n")
        good, bad, left = kept[0], 0, kept[1]
    else:
        good, bad, left = run(part, show)
        least = least_of(part, left)
        if not bad and good < least:
            show(f"test: {part.name}: {good} passed, and not {least} or more: not all was tried\n")
            bad = 1
        if entry and not bad and part.entry(Crates()) == entry:
            store.keep_verdict(entry, json.dumps([good, left]))
    show(f"test: {part.name}: {good} passed, {bad} failed in {time.monotonic() - began:.0f} s\n")
    return good, bad, [f"{part.name}: {it}" for it in left]


def least_of(part, left):
    """How many pass at least of a part that left this out."""
    return part.least() if left else part.whole()


def verdict_of(line):
    """What passed and what was left out, of a line that was kept; None of any other."""
    try:
        good, left = json.loads(line or "")
    except (TypeError, ValueError):
        return None
    return (good, left) if good > 0 else None


def judged_apart(part, crates, store):
    """What passed and failed of a part, and what it left out; what the part says is shown once it has ended."""
    said = []
    counts = judged(part, crates, store, said.append)
    print("".join(said), end="", flush=True)
    return counts


class Programs:
    """Which programs, and whether the library for C, are built. Each is laid out once it is proved, while others are still
    being proved; what isn't heard of is looked for, or built, at the end."""

    def __init__(self, names):
        self.names, self.there, self.ended = names, set(), False
        self.change, self.pool = threading.Condition(), ThreadPoolExecutor()

    def hear(self, line):
        """Takes a line that the proofs say."""
        found = PROVED.match(line.strip())
        if found and found[1] in self.names:
            self.pool.submit(self.build, ["--kept"], [found[1]])

    def build(self, how, names):
        is_built = subprocess.run([sys.executable, "gate/built.py", *how, *names], cwd=TOP).returncode == 0
        with self.change:
            self.there.update(names if is_built else [])
            self.change.notify_all()

    def end(self):
        """No more is proved from now on."""
        self.pool.shutdown()
        left = [it for it in self.names if it not in self.there]
        if left:
            self.build([], left)
        with self.change:
            self.ended = True
            self.change.notify_all()

    def await_all(self, names):
        """Waits until these are there and says whether they are; without names, until the proofs have ended."""
        with self.change:
            self.change.wait_for(lambda: self.ended or names and self.there.issuperset(names))
            return self.there.issuperset(names)


def judged_once_built(part, crates, store, programs, turns):
    """Judges a part that runs programs, once they are there."""
    needs = sorted(part.runs & programs.names)
    if not programs.await_all(needs):
        print(f"test: {part.name}: 0 passed, 1 failed, since not all of {', '.join(needs)} was built", flush=True)
        return 0, 1, []
    with turns:
        return judged_apart(part, crates, store)


def sources_said():
    """The line by which `./pack release` knows that the gate ran on its sources, or why there is none."""
    try:
        return f"test: sources {sources()}"
    except (OSError, ValueError) as error:
        return f"test: a release can't quote this run: {error}"


def gate(more, demands_all):
    began, store, crates = time.monotonic(), Store(reads=not more), Crates()
    of_sources = sources_said()
    of_texts, proofs, of_programs = parts(more)
    programs, turns = Programs({"reqs_cli", "reqs_c", QUESTIONS}), threading.Semaphore(AT_A_TIME)

    def show(text):
        print(text, end="", flush=True)
        programs.hear(text)

    with ThreadPoolExecutor(len(of_texts) + len(of_programs)) as pool:
        # (found once, before all ask for it)
        verdicts.versions()
        beside = [pool.submit(judged_apart, it, crates, store) for it in of_texts]
        beside += [pool.submit(judged_once_built, it, crates, store, programs, turns) for it in of_programs]
        counted = [judged(proofs, crates, store, show)]
        programs.end()
        counted += [it.result() for it in beside]
    left = [it for part in counted for it in part[2]]
    passed, failed = (sum(it[at] for it in counted) for at in (0, 1))
    if left:
        print("test: left out, though a release needs all of it (./test --release):", *left, sep="\n    ")
    failed += len(left) if demands_all else 0
    print(of_sources if of_sources == sources_said() else "test: a release can't quote this run: files were changed meanwhile")
    used = resource.getrusage(resource.RUSAGE_CHILDREN)
    print(f"test: {time.monotonic() - began:.0f} s, {used.ru_utime + used.ru_stime:.0f} processor seconds")
    print(f"{passed} passed, {failed} failed")
    return 1 if failed else 0


def main(words):
    mode, named = words[0] if words else "", words[1:]
    takes_names = ("--wrong", "--mutants", "--accept")
    if mode not in ("", NOTHING, RELEASE, "--faults", *takes_names) or named and mode not in takes_names:
        print(__doc__, file=sys.stderr)
        return 2
    if mode == "--accept":
        return accept.main(named)
    if not shutil.which("rt"):
        print("test: the command rt of the Rattle toolchain, which proves crates, is not on the PATH", file=sys.stderr)
        print("0 passed, 1 failed")
        return 1
    if mode in SCRIPTS:
        ran = [subprocess.run([sys.executable, os.path.join("gate", *script), *named], cwd=TOP) for script in SCRIPTS[mode]]
        return max(it.returncode for it in ran)
    return gate([NOTHING] if mode else [], mode == RELEASE)


if __name__ == "__main__":
    sys.exit(main(sys.argv[1:]))
