"""Proves crates by `rt`'s own code where the store doesn't have them, and keeps what it proved there, under the sum of all
that it rests on. This is the way of a run from nothing; kept.py has that of every day.
"""

import os
import shutil
import sys
import threading

import keys
import toolchain
from crates import TOP, Crates, kit_folder
from lanes import GAIN, Lanes, Task
from store import remove

# Programs and the library for C run on each processor of their kind, as wheels and Debian's packages say of what they hold.
CPU = "x86-64"
LIBRARY, PROGRAM, STATIC, TESTS = "library", f"program-{CPU}", f"static-{CPU}", "tests"
# A file in out/, or in out/rlib/, that says by its sum what lies there.
MARK = "sum"
# What a proof takes by one job, as measured: a crate is loaded, and then so much for a line. Functions of programs and of
# tests own more values.
SECONDS, SECONDS_A_LINE = 7, {LIBRARY: 0.13, PROGRAM: 0.6, STATIC: 0.6, TESTS: 0.6}
# What the gate does with a program, or with the library for C, once it is proved, in seconds.
AFTER = {PROGRAM: 300, STATIC: 300}
# Some checks take a fifth more memory than is reckoned.
MEMORY = 0.85


class Prover:
    """Proves crates by `rt` where the store doesn't have them."""

    def __init__(self, rt, store):
        self.rt, self.store, self.crates = rt, store, Crates()
        self.proves = rt.Crate.ci
        self.taken, self.proved = [], []
        # makes more tasks, to be run beside those of the crates
        self.more_tasks = dict
        self.turns = {it: threading.Lock() for it in self.crates}

    def kind(self, name, tests=False):
        crate = self.crates[name]
        return TESTS if tests else PROGRAM if crate.is_program() else STATIC if crate.is_static() else LIBRARY

    def entry(self, name, tests=False):
        """The name in the store of what was proved of a crate or of its tests."""
        return f"{keys.of_proof(self.crates, name)}.{self.kind(name, tests)}"

    def mark(self, name, tests=False):
        """The name in the store of the word that it had a proof of a crate or of its tests, whatever their texts were then."""
        return f"{name}.{self.kind(name, tests)}.known"

    def parts(self, name, tests=False):
        """What lies in out/ once a crate or its tests are proved. An entry that lacks any of it is none."""
        programs = [name, f"{name}.by-rattle"]
        made = {TESTS: [f"{name}_tests"], PROGRAM: programs, STATIC: [archive_of(name)], LIBRARY: [f"rlib/{name}.rlib"]}
        return made[self.kind(name, tests)]

    def take_or_prove(self, crate, flags, tests):
        """Stands in place of `rt`'s way to prove a crate from nothing, and gives a status as that does."""
        entry, out, parts = self.entry(crate.name, tests), os.path.join(crate.folder, "out"), self.parts(crate.name, tests)
        # (a library is unpacked once something is proved over it)
        is_library = self.kind(crate.name, tests) == LIBRARY
        if self.store.has(entry, parts) if is_library else self.store.take(entry, out, parts):
            self.taken.append(entry)
            return 0
        lost = [it.name for it in crate.below() if not self.lay_out(it.name)]
        if lost:
            print(f"gate: {crate.name}: the library {lost[0]} can't be taken from the store", file=crate.out)
            return 1
        # (what an earlier run built there says nothing of this one)
        for it in parts:
            remove(os.path.join(out, it))
        if self.kind(crate.name, tests) in (PROGRAM, STATIC):
            crate.said["cpu"] = CPU
        status = self.prove(crate, flags, tests)
        lacking = [it for it in parts if not os.path.exists(os.path.join(out, it))]
        if status == 0 and lacking:
            print(f"gate: {crate.name} was proved, and out/{lacking[0]} was not made", file=crate.out)
            return 1
        if status == 0:
            self.proved.append(entry)
            self.keep(crate, entry, tests)
        return status

    def prove(self, crate, flags, tests):
        """Proves a crate from nothing, and gives a status. `rt ci` makes no archive of a library for C, so that is built here."""
        if self.kind(crate.name, tests) != STATIC:
            return self.proves(crate, flags, tests)
        words = [*crate.words(flags, keeps=False), "--toolchain", os.path.join(kit_folder(), "toolchain")]
        return crate.prove(["build", *words, "--backend", "llvm", "-o", f"out/{archive_of(crate.name)}"])

    def keep(self, crate, entry, tests):
        """Keeps what was proved, unless a text changed meanwhile."""
        if Crates().sum(crate.name) != self.crates.sum(crate.name):
            return
        out, is_library = os.path.join(crate.folder, "out"), self.kind(crate.name, tests) == LIBRARY
        if is_library:
            write(os.path.join(out, "rlib", MARK), entry)
        self.store.keep(entry, out, ["rlib"] if is_library else self.parts(crate.name, tests))
        self.store.keep_verdict(self.mark(crate.name, tests), entry)

    def lay_out(self, name):
        """Has a library that was proved or kept in its crate's out/, and says whether it is there."""
        out, entry = os.path.join(self.crates[name].folder, "out"), self.entry(name)
        is_there = lambda: read(os.path.join(out, "rlib", MARK)) == entry
        with self.turns[name]:
            if is_there():
                return True
            os.makedirs(out, exist_ok=True)
            return self.store.take(entry, out, self.parts(name)) and is_there()

    def lay_out_for_rt(self, crate):
        """Does the same with the stamp by which `rt check` knows a library for its own."""
        is_there = self.lay_out(crate.name)
        if is_there:
            write(os.path.join(crate.folder, "out", "rlib", "stamp"), crate.stamp())
        return is_there

    def in_lanes(self, tasks):
        """Stands in place of `rt`'s way to run tasks side by side, and takes them in its form."""
        made = {}
        for key, (waits, lines, memory, call) in tasks.items():
            name, tests = (key, False) if isinstance(key, str) else (key[0], key[1] == TESTS)
            is_kept = self.store.has(self.entry(name, tests), ())
            takes = 1 if is_kept or not lines else self.seconds(name, tests, lines)
            after = AFTER.get(self.kind(name, tests), 0)
            made[key] = Task(waits, takes, self.memory(name, tests, memory), call, self.most_jobs(name, tests), after)
        made.update(self.more_tasks())
        return self.run(made)

    def seconds(self, name, tests, lines):
        """What the proof of a crate of so many lines, or of its tests, takes by one job, about."""
        return SECONDS + SECONDS_A_LINE[self.kind(name, tests)] * lines

    def loading(self, _name):
        """What a check of a crate takes to load those below it, in seconds: statements alone are loaded soon."""
        return 0

    def memory(self, _name, _tests, reckoned):
        """What a check of a crate takes, in bytes, by what `rt` reckons."""
        return reckoned

    def most_jobs(self, _name, _tests):
        """How many jobs are of use to a proof."""
        return max(GAIN)

    def run(self, tasks):
        """Runs tasks, as many side by side as processors and memory allow."""
        return Lanes(tasks, self.rt.processors(), lambda: MEMORY * self.rt.free()).run()

    def told(self):
        return f"{len(self.proved)} proved, {len(self.taken)} taken from the store"


def archive_of(name):
    return f"lib{name}.a"


def read(path):
    try:
        with open(path, encoding="utf-8") as file:
            return file.read()
    except (OSError, UnicodeDecodeError):
        return None


def write(path, text):
    with open(path, "w", encoding="utf-8") as file:
        file.write(text)


def put_back(root, aside, was_killed=False):
    """Gives the crates back what stood in out/ before, and leaves what this run has laid out there."""
    for name in os.listdir(aside):
        folder = os.path.join(root, "crates", name)
        for part in os.listdir(os.path.join(aside, name)) if os.path.isdir(folder) else []:
            if not os.path.exists(os.path.join(folder, "out", part)):
                os.makedirs(os.path.join(folder, "out"), exist_ok=True)
                shutil.move(os.path.join(aside, name, part), os.path.join(folder, "out", part))


def all_crates(prover):
    """Does what `rt ci` does, but for what the store has."""
    prover.rt.Crate.ci = lambda crate, flags, tests: prover.take_or_prove(crate, flags, tests)
    prover.rt.put_back, prover.rt.in_lanes = put_back, prover.in_lanes
    os.chdir(TOP)
    status = toolchain.prove_all(prover.rt)
    print(f"gate: {prover.told()}", file=sys.stderr, flush=True)
    return status


class Chain:
    """Some crates and those below them, which are proved as many side by side as processors and memory allow."""

    def __init__(self, prover, names):
        rt = prover.rt
        rt.rtlib.stop, rt.Crate.cuts_libraries, rt.rtlib.Crate = rt.stop, True, rt.Crate
        rt.rtlib.guarded()
        rt.Crate.allowed = rt.handles_of(TOP)
        self.prover, self.names, self.ended = prover, names, 0
        wanted = {low.name for it in names for low in [*prover.crates.below(it), prover.crates[it]]}
        crates = [it for it in rt.rtlib.crates_below(TOP) if it.name in wanted]
        self.crates = sorted(crates, key=lambda it: len(it.below()))

    def prove(self, crate, given, jobs):
        if not all(given[it.name] for it in crate.below()):
            return False
        out = os.path.join(crate.folder, "out")
        os.makedirs(out, exist_ok=True)
        log = os.path.join(out, "prove.log")
        with open(log, "w", encoding="utf-8", errors="replace") as crate.out:
            status = self.prover.take_or_prove(crate, ["--jobs", str(jobs)], False)
        self.ended += 1
        failed = f"NOT PROVED, as crates/{crate.name}/out/prove.log tells"
        if status or self.prover.entry(crate.name) in self.prover.proved:
            told = failed if status else "proved"
            print(f"gate: crate {self.ended} of {len(self.crates)}: {crate.name}: {told}", file=sys.stderr, flush=True)
        return status == 0

    def run(self):
        """Says whether all are proved."""
        rt, tasks = self.prover.rt, {}
        held = rt.rtlib.lock(self.crates)
        for it in self.crates:
            waits, lines = [low.name for low in it.below()], it.count(rb"\n")
            tasks[it.name] = waits, lines, rt.need(it), lambda given, jobs, it=it: self.prove(it, given, jobs)
        given = self.prover.in_lanes(tasks)
        for it in held:
            os.close(it)
        return all(given.values())
