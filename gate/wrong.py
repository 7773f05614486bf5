#!/usr/bin/env python3
"""Tries wrong edits: the prover has to refuse each, and to prove its control where it has one.

    wrong.py [--from-nothing] [--texts | --gate] [CRATE..]

The edits of a crate C stand in tests/wrong/C/ (gate/edits.py has their form); all crates are meant where
none is named. With --texts nothing is proved: it is only seen that each edit and each control fits the
files that it changes. With --gate the edits are those that tests/wrong/gate.txt names, otherwise all.

They are tried over the proved libraries of the store, in checks of just the functions that they change
(`rattle check --only`), as many side by side as processors and memory allow. Edits of different functions
stand together in one check, which tells of each function by itself: an edit is refused where the very
function that it changes is told as not proved, and not only since a proof file names what the edit took
away. Controls stand together in checks of their own.

With --gate all edits are tried of a crate whose texts or edits aren't those of tests/wrong/judged.txt. An edit
that isn't told as refused so is tried once more alone; one of gate.txt has failed where it isn't then either.
An edit of a definition, which is no function's, is tried by a check of the whole crate, if gate.txt doesn't name it. Without --gate what the store
lacks of the libraries is proved first, and what passed of a whole crate is written into judged.txt.

A verdict is kept in the store by the sum of all that it rests on, one on an edit and one on its control, and
what has one isn't tried again; with --from-nothing none is taken. An edit that is refused has passed, and so
has a control that is proved. The last line is `N passed, M failed`; the status is 0 where M is 0, and 2 where
a name is no crate's.
"""

import os
import re
import shutil
import signal
import sys
import tempfile
import threading
import time

import toolchain
import verdicts
from crates import Crates
from edits import FLOORS, Misfit, edits_of, judged_sum, read_gate, read_judged, strays, write_judged
from kept import prover_of
from lanes import Task
from prover import SECONDS, Chain
from store import Store

# Where one of the edits in a check doesn't compile, the check tells of none.
MOST_TOGETHER = 20
# What an edit takes in its check, about.
SECONDS_AN_EDIT = 15
# What a check takes at least, in bytes, and for a line of the crates below: the highest crates' take 5 to 7 GB.
MEMORY, MEMORY_A_LINE_BELOW = 2_000_000_000, 30_000
# What rattle says of a proof file that names what an edit took away, and of what rests on a refused part.
LOST = re.compile(r"has no field|is not in scope|has no `|was not admitted|\(nearest: |were not checked")
TOLD = re.compile(r"^fn (\S+): (proved|not proved.*|no proof.*)$", re.M)
# How a check tells that a function isn't proved.
AT_A_VALUE, FOR_NAMES, WITHOUT_A_GOAL = "refused at a value", "refused for names", "refused without a goal"
# What is tried of an edit, and the verdict where that passed.
EDIT, CONTROL = "edit", "control"
PASSED = {EDIT: "refused", CONTROL: "proved"}
NOTES = {
    FOR_NAMES: "refused only since a proof file names what it took away: change a value and keep the names",
    WITHOUT_A_GOAL: "refused, and no goal is named: see why",
}


def name_told(function, told, crate):
    """The whole name of a function that a check told of, or None."""
    names = [it for it in told if it == f"{crate}::{function}"]
    names = names or [it for it in told if it.endswith(f"::{function}")]
    return names[0] if len(names) == 1 else None


def errors_of(name, said):
    """What a check said of the proof files of a function."""
    *modules, last = name.split("::")[1:]
    folder = "".join(f"{re.escape(it)}/" for it in modules)
    # (a message goes on in indented lines; functions of one cycle have a folder together, where a goal begins
    # by the name of its function)
    error = rf"^(?:\./)?proofs/{folder}([\w+-]+)/\S+: error: (.*(?:\n  .*)*)"
    return [
        " ".join(message.split())
        for place, message in re.findall(error, said, re.M)
        if place.lstrip("+") == last or place[0] == "+" and message.startswith(f"`{last}-")
    ]


def refusal(function, said, crate):
    """How a check told that this very function is not proved; None where it didn't."""
    told = dict(TOLD.findall(said))
    name = name_told(function, told, crate)
    if not name or told[name] == "proved":
        return None
    if "did not prove" in told[name]:
        return AT_A_VALUE
    if not told[name].startswith("not proved"):
        return None
    errors = errors_of(name, said)
    shown = [it for it in errors if not LOST.search(it)]
    return AT_A_VALUE if shown else FOR_NAMES if errors else WITHOUT_A_GOAL


def is_told_proved(function, told, crate):
    """Whether a check told that this function and all closures in it are proved."""
    name = name_told(function, told, crate)
    inside = [it for it in told if name and it.replace("::fn::", "::", 1).startswith(f"{name}::")]
    return bool(name) and all(told[it] == "proved" for it in [name, *inside])


def last_line(said):
    return said.rstrip("\n").rpartition("\n")[2][:300]


def not_refused(said):
    return f"its function isn't told as not proved; the last line is: {last_line(said)}"


def batches(edits, change_of):
    """The edits in batches of which each changes a function once, and the texts of a batch together."""
    left = list(edits)
    while left:
        texts, taken, batch = {}, set(), []
        for edit in list(left):
            functions = {*change_of(edit).functions}
            if taken & functions or len(batch) == MOST_TOGETHER:
                continue
            try:
                texts = change_of(edit).over(texts)
            except Misfit:
                continue
            taken |= functions
            batch.append(edit)
            left.remove(edit)
        yield batch, texts


class Trial:
    """Tries edits and counts what passes."""

    def __init__(self, prover, verdicts):
        self.prover, self.verdicts = prover, verdicts
        self.failing = set()
        self.passed = self.failed = self.taken = self.tried = self.checks = self.ended = 0
        self.own_sums, self.open, self.keys = {}, {}, {}
        self.turn, self.began = threading.RLock(), time.monotonic()

    def key(self, edit, half):
        """The name of the verdict on an edit or on its control: the sum of all that it rests on."""
        if edit.label not in self.keys:
            self.keys[edit.label] = verdicts.of_edit(self.prover.crates, edit)
        return f"{self.keys[edit.label]}.{half}"

    def take(self, edit):
        """Takes the verdicts that the store has on an edit and on its control, and says whether it has both."""
        self.own_sums.setdefault(edit.crate.name, edit.crate.own_sum())
        halves = (EDIT, CONTROL)[: len(edit.changes())]
        self.open[edit.label] = [it for it in halves if self.verdicts.verdict(self.key(edit, it)) != PASSED[it]]
        self.passed += len(halves) - len(self.open[edit.label])
        self.taken += not self.open[edit.label]
        return not self.open[edit.label]

    def is_open(self, edit, half):
        """Says whether the store had no verdict on an edit or on its control."""
        return half in self.open[edit.label]

    def record(self, edit, half, is_good, words=""):
        """Counts what came of an edit or of its control, and keeps the verdict where that has passed."""
        with self.turn:
            self.passed, self.failed = self.passed + is_good, self.failed + (not is_good)
            self.failing |= set() if is_good else {edit.crate.name}
            if words:
                print(f"{'note' if is_good else 'FAILED'}: {edit.label}: {words}", flush=True)
            elif is_good and edit.crate.own_sum() == self.own_sums[edit.crate.name]:
                self.verdicts.keep_verdict(self.key(edit, half), PASSED[half])

    def check(self, crate, texts, changes):
        functions = sorted({at for it in changes for at in it.named})
        flags = ["--jobs", "1", *(f"--only={it}" for it in functions)]
        ran = self.prover.rt.checked(self.rt_crates[crate.name], texts, flags, None)
        return ran.returncode, ran.stdout

    def try_edits(self, edits, texts):
        _, said = self.check(edits[0].crate, texts, [it.wrong for it in edits])
        for it in edits:
            if AT_A_VALUE in [refusal(at, said, it.crate.name) for at in it.wrong.functions]:
                self.record(it, EDIT, True)
            elif not it.may_be_alone:
                self.try_once_more(it, said, len(edits) > 1)
            elif len(edits) == 1:
                self.judge_alone(it, said)
            else:
                self.judge_alone(it, self.check(it.crate, it.wrong.over({}), [it.wrong])[1])

    def try_once_more(self, edit, said, was_beside):
        """Judges an edit of gate.txt, by a check of its own where it was tried beside one of a function that it calls."""
        if was_beside:
            said = self.check(edit.crate, edit.wrong.over({}), [edit.wrong])[1]
        is_refused = AT_A_VALUE in [refusal(at, said, edit.crate.name) for at in edit.wrong.functions]
        self.record(edit, EDIT, is_refused, "" if is_refused else not_refused(said))

    def judge_alone(self, edit, said):
        """Counts an edit by what a check told in which no other stands."""
        texts = edit.wrong.over({})
        unread = [it for it in said.split("\n") if self.prover.rt.unread(it, texts)]
        how = [it for it in (refusal(at, said, edit.crate.name) for at in edit.wrong.functions) if it]
        if unread:
            self.record(edit, EDIT, False, f"the prover cannot read the edited text: {unread[0][:200]}")
        elif how:
            self.record(edit, EDIT, True, "" if AT_A_VALUE in how else NOTES[how[0]])
        else:
            self.record(edit, EDIT, False, not_refused(said))

    def try_by_whole_check(self, edits, _texts):
        """Tries an edit that is no function's, as `rt must-fail` does."""
        for it in edits:
            crate = self.rt_crates[it.crate.name]
            kind, words = self.prover.rt.must_fail(crate, it.path, ["--jobs", "1"])
            is_refused = toolchain.is_refused(self.prover.rt, kind)
            note = "only because a proof file names" in words or words.endswith(": refused, as it must be")
            self.record(it, EDIT, is_refused, "" if is_refused and not note else words.partition(": ")[2])

    def try_controls(self, edits, texts):
        crate = edits[0].crate
        status, said = self.check(crate, texts, [it.control for it in edits])
        told = dict(TOLD.findall(said))
        if not told and len(edits) > 1:
            # (one of them doesn't compile)
            for it in edits:
                self.try_controls([it], it.control.over({}))
            return
        well = {at for it in edits for at in it.control.named if is_told_proved(at, told, crate.name)}
        proved = [it for it in edits if well.issuperset(it.control.named)]
        if status and len(proved) == len(edits):
            proved = []
        for it in edits:
            if it in proved:
                self.record(it, CONTROL, True)
                continue
            names = [name_told(at, told, crate.name) for at in it.control.named]
            errors = [error for name in names if name for error in errors_of(name, said)]
            why = (errors or [f"the last line is: {last_line(said)}"])[0][:300]
            self.record(it, CONTROL, False, f"its control isn't proved, so the edit shows nothing: {why}")

    def try_control_by_whole_check(self, edits, texts):
        status, said = self.check(edits[0].crate, texts, [])
        words = "" if status == 0 else f"its control isn't proved, so the edit shows nothing: {last_line(said)}"
        self.record(edits[0], CONTROL, status == 0, words)

    def run_check(self, call, half, kind, edits, texts):
        before, crate = time.monotonic(), edits[0].crate
        below = [it.name for it in self.prover.crates.below(crate.name)]
        lost = next((it for it in below if not self.prover.lay_out(it)), None)
        if lost:
            for it in edits:
                self.record(it, half, False, f"not tried, since the library {lost} isn't in the store")
        else:
            call(edits, texts)
        with self.turn:
            self.ended += 1
            print(
                f"wrong: {crate.name}: {len(edits)} {kind} in {time.monotonic() - before:.0f} s"
                f" ({self.ended} of {self.checks} checks, {time.monotonic() - self.began:.0f} s)",
                flush=True,
            )

    def checks_of(self, edits):
        """The checks in which a crate's edits are tried: how, which half of them, what is tried, the edits and their texts."""
        wrong = [it for it in edits if self.is_open(it, EDIT)]
        at_functions = [it for it in wrong if None not in it.wrong.functions]
        for batch, texts in batches(at_functions, lambda it: it.wrong):
            yield self.try_edits, EDIT, "edits", batch, texts
        controlled = [it for it in edits if self.is_open(it, CONTROL)]
        for batch, texts in batches([it for it in controlled if it.control.named], lambda it: it.control):
            yield self.try_controls, CONTROL, "controls", batch, texts
        for it in controlled:
            if not it.control.named and it.may_be_alone:
                yield self.try_control_by_whole_check, CONTROL, "controls of definitions", [it], it.control.over({})
        for it in wrong:
            if it not in at_functions and it.may_be_alone:
                yield self.try_by_whole_check, EDIT, "edits of definitions", [it], {}
            elif it not in at_functions:
                self.record(it, EDIT, False, "it changes no function, so the gate can't try it")

    def tasks(self, edits, waits_of=lambda crate: []):
        """The checks by which edits are tried, as tasks that wait for what a crate's wait for."""
        chain = Chain(self.prover, sorted({it.crate.name for it in edits}))
        self.rt_crates = {it.name: it for it in chain.crates}
        made = {}
        for crate in {it.crate.name: it.crate for it in edits}.values():
            for check in self.checks_of([it for it in edits if it.crate is crate]):
                count = len(check[3])
                # (of many edits most are of functions that stand on little)
                seconds = SECONDS + self.prover.loading(crate.name) + SECONDS_AN_EDIT * min(count, 4) + 3 * max(count - 4, 0)
                call = lambda _given, _jobs, check=check: self.run_check(*check)
                made[crate.name, "edits", len(made)] = Task(waits_of(crate), seconds, self.memory(crate), call, most_jobs=1)
        self.checks, self.tried = len(made), len(edits)
        return made

    def memory(self, crate):
        """What a check of edits takes, in bytes: high up most of it is for the libraries below."""
        return max(crate.memory(), MEMORY + MEMORY_A_LINE_BELOW * sum(it.lines() for it in self.prover.crates.below(crate.name)))

    def left_of(self, edits):
        """Those edits that are to be tried: they fit, and the store has no verdict of them."""
        left = []
        for it in edits:
            if it.why:
                self.record(it, EDIT, False, it.why)
            elif not self.take(it):
                left.append(it)
        return left

    def summary(self):
        return f"{self.tried} edits tried, {self.taken} verdicts taken from the store"


def try_edits(edits, is_gate, is_from_nothing):
    """Tries edits, and returns how many of them and of their controls passed and failed, and the crates of which some failed."""
    try:
        prover = prover_of(False)
    except toolchain.Unknown as error:
        print(f"FAILED: gate/toolchain.py doesn't know this toolchain's rt ({error}), so no edit was tried")
        return 0, len(edits), {it.crate.name for it in edits}
    trial = Trial(prover, Store(reads=not is_from_nothing))
    left = trial.left_of(edits)
    names = [it for it in prover.crates if it in {edit.crate.name for edit in left}]
    if names and not is_gate:
        Chain(prover, names).run()
    if left:
        prover.run(trial.tasks(left))
    print(f"wrong: {trial.summary()}")
    return trial.passed, trial.failed, trial.failing


def see_texts(edits):
    """Sees whether each edit and each control fits. Returns how many do, and how many don't."""
    for it in edits:
        if it.why:
            print(f"FAILED: {it.label}: {it.why}")
    good = [it for it in edits if not it.why]
    return sum(len(it.changes()) for it in good), len(edits) - len(good)


def faults_of_gate(crates, chosen, floors, known):
    """What is amiss in tests/wrong/gate.txt: names of none, and less than the floors."""
    for name in chosen:
        if name not in crates:
            yield f"tests/wrong/gate.txt: crates.txt names no crate {name}"
    for name, names in chosen.items():
        yield from (f"tests/wrong/gate.txt: there is no tests/wrong/{name}/{it}.edit" for it in names
                    if it not in known.get(name, {}))
    in_all = [it for edits in known.values() for it in edits.values()]
    in_gate = [it for it in in_all if it.name in chosen.get(it.crate.name, [])]
    for floor, edits in zip(FLOORS, (in_gate, in_all)):
        least = floors.get(floor, [])
        if len(least) != 2 or not all(it.isdigit() for it in least):
            yield f"tests/wrong/gate.txt: it has no line `{floor}: EDITS CONTROLS`"
            continue
        has = len(edits), len([it for it in edits if it.control])
        for what, number, wanted in zip(("edits", "edits with controls"), has, least):
            if number < int(wanted):
                yield f"tests/wrong/gate.txt: {floor}: {number} {what}, and not {wanted} or more"


def read_edits(crates, names, is_gate):
    """The edits of these crates, or of all, or those of them that the gate tries; and what is amiss with their files."""
    found = {name: edits_of(crate) for name, crate in crates.items()}
    known = {name: edits for name, (edits, _) in found.items()}
    chosen, floors = read_gate()
    told = [it for _, faults in found.values() for it in faults]
    told += [f"tests/wrong/{it}: crates.txt names no such crate" for it in strays(crates)]
    told += faults_of_gate(crates, chosen, floors, known)
    for it in told:
        print(f"FAILED: {it}")
    tried = [it for edits in known.values() for it in edits.values() if not names or it.crate.name in names]
    if is_gate:
        tried = edits_of_gate(tried, chosen, {name for name in known if is_changed(crates[name], known[name])})
    if not tried:
        told.append("no edit")
        print("FAILED: there is no edit to try")
    return tried, len(told)


def is_changed(crate, edits):
    """Whether a crate's texts or its edits are others than when all of its edits were last tried."""
    return bool(edits) and read_judged().get(crate.name, [None])[0] != judged_sum(crate, edits)


def edits_of_gate(edits, chosen, changed):
    """The edits that the gate tries: those that gate.txt names, and all of crates that changed."""
    for name in sorted(changed & {it.crate.name for it in edits}):
        print(f"wrong: {name}: its texts or its edits changed, so all of its edits are tried", flush=True)
    for it in edits:
        it.may_be_alone = it.name not in chosen.get(it.crate.name, [])
    return [it for it in edits if not it.may_be_alone or it.crate.name in changed]


def keep_judged(crates, tried, failing):
    """Writes down of which crates all edits have passed."""
    names = {it.crate.name for it in tried} - failing
    write_judged({it: judged_sum(crates[it], edits_of(crates[it])[0]) for it in names}, crates)


def end_on_signals():
    """Has all that is written while edits are tried in one folder, which a signal removes too."""
    room = tempfile.tempdir = tempfile.mkdtemp(prefix="fowlyore-wrong-")

    def end(number, _frame):
        shutil.rmtree(room, ignore_errors=True)
        # (what was started ends with this process, for which nobody waits here)
        os._exit(128 + number)

    for it in (signal.SIGINT, signal.SIGTERM, signal.SIGHUP):
        signal.signal(it, end)
    return room


def main(words):
    is_from_nothing = words[:1] == ["--from-nothing"]
    words = words[is_from_nothing:]
    mode = words[0] if words[:1] in (["--texts"], ["--gate"]) else ""
    names, crates = words[bool(mode) :], Crates()
    unknown = [it for it in names if it not in crates]
    if unknown:
        print(f"wrong: crates.txt names no crate {unknown[0]}", file=sys.stderr)
        return 2
    tried, amiss = read_edits(crates, names, mode == "--gate")
    if mode == "--texts":
        good, bad = see_texts(tried)
    else:
        room = end_on_signals()
        good, bad, failing = try_edits(tried, mode == "--gate", is_from_nothing)
        shutil.rmtree(room, ignore_errors=True)
        if not mode and not amiss:
            keep_judged(crates, tried, failing)
    bad += amiss
    print(f"{good} passed, {bad} failed")
    return 1 if bad else 0


if __name__ == "__main__":
    sys.exit(main(sys.argv[1:]))
