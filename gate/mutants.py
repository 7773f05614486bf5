#!/usr/bin/env python3
"""Tries mutants of definitions: the prover, or a wrong edit, has to notice each.

    mutants.py [NAME..]             those of crates, modules (CRATE.MODULE) and definitions (CRATE.MODULE.NAME), or of each
                                    definition that wasn't tried as it stands; writes what came of it into both lists
    mutants.py --above NAME..       the same, and what its crate leaves unnoticed is tried in the crates above
    mutants.py --again [NAME..]     those that were tried before; or where none is named those of all definitions: writes only
                                    what came of definitions that weren't tried, and fails where one isn't noticed that
                                    tests/unnoticed.txt doesn't have
    mutants.py --listed             proves nothing: sees that both lists are those of the definitions as they stand

A proof is worth what its definitions say. weakenings.py makes mutants of a definition, and mutant_lists.py has the lists.
A mutant is noticed where its crate isn't proved with it; else where one of the crate's wrong edits, each of which is
refused, is proved with it. Proofs that give a field which the mutant dropped are mended first. The crate is checked over
what an earlier check of it proved, which lies in its folder out/mutants: of that only is taken what the mutant leaves as
it was. Nothing of this goes to the store. A mutant that the prover can't read, or whose types don't fit, is none. Where
the prover tells only of proofs that name what the mutant took away, it is noticed by name. The last line is
`N passed, M failed`.
"""

import os
import re
import shutil
import subprocess
import sys
import tempfile
import threading
import time

import toolchain
from crates import Crates
from edits import Misfit
from faults import copy_of
from kept import prover_of
from lanes import Task
from mutant_lists import NO_REASON, Lists, items_of, judged
from prover import SECONDS, Chain, read, write
from resting import crates_naming, edits_resting_on
from statements import specs_of
from store import Store, default_folder
from weakenings import WORD
from wrong import LOST, TOLD, batches, end_on_signals, is_told_proved, last_line

ERROR = re.compile(r"^(?:\./)?((?:specs|src)/\S+?):(\d+):\d+: error: (.*)", re.M)
OF_PROOF = re.compile(r"^(?:\./)?proofs/\S+: error: (.*(?:\n  .*)*)", re.M)
NOT_A_FIELD = re.compile(r"^(?:\./)?(proofs/\S+?):(\d+):(\d+): error: (?:`[^`]*`: )?`(\S+)` is not a field of record", re.M)
UNFIT, PROVED, BY_VALUE, BY_NAME, UNTOLD = "no mutant", "not noticed", "noticed", "noticed by name", "could not be told"
# What a check of a mutant takes over what was proved before, about.
SECONDS_A_MUTANT = 40
# A check tells of no proof that rests on one which has to be mended first.
MOST_MENDED = 5


def linked(folder, to):
    """A copy of kept work: what was checked is never written in place, so a second name of each such file does."""
    for at, _, names in os.walk(folder):
        into = os.path.join(to, os.path.relpath(at, folder))
        os.makedirs(into, exist_ok=True)
        for it in names:
            old, new = os.path.join(at, it), os.path.join(into, it)
            try:
                os.link(old, new) if it.endswith(".oantt") else shutil.copy2(old, new)
            except OSError:
                shutil.copy2(old, new)


def without_field(text, line, column):
    """A proof's text without what a `record` there gives for a field."""
    begin = sum(len(it) + 1 for it in text.split("\n")[: line - 1]) + column - 1
    depth = 0
    for it in WORD.finditer(text, begin):
        depth += {"(": 1, "{": 1, ")": -1, "}": -1}.get(it[0], 0)
        if depth < 0 or depth == 0 and it[0] == ";":
            return text[:begin] + text[it.start() if depth < 0 else it.end() :]
    return text


def mended(item, mutant, texts, said):
    """The texts of proofs that give the field which a mutant dropped, without that."""
    found = {}
    for file, line, column, field in sorted(NOT_A_FIELD.findall(said), key=lambda it: (-int(it[1]), -int(it[2]))):
        if mutant.name == f"drop field {field}":
            text = found.get(file) or texts.get(file) or read(os.path.join(item.crate.folder, file))
            found[file] = without_field(text, int(line), int(column))
    return found


class Killed(Exception):
    """A check was ended from without, so it says nothing."""


class Trial:
    """Tries mutants, each by what notices it first."""

    def __init__(self, prover, looks_above):
        self.prover, self.looks_above = prover, looks_above
        self.turns = {it: threading.Lock() for it in prover.crates}
        self.bases, self.began = {}, time.monotonic()

    def begin(self, names):
        """Has the libraries below these crates laid out, and says whether they are."""
        below = {low.name for it in names for low in self.prover.crates.below(it)}
        self.rt_crates = {it.name: it for it in Chain(self.prover, sorted(names)).crates}
        lacking = sorted(it for it in below if not self.prover.lay_out(it))
        return not lacking or Chain(self.prover, lacking).run() and all(self.prover.lay_out(it) for it in lacking)

    def check(self, crate, texts, kept, flags=()):
        ran = self.prover.rt.checked(self.rt_crates[crate.name], texts, ["--jobs", "1", *flags], kept)
        if ran.returncode < 0:
            raise Killed(f"a check of {crate.name} was ended by signal {-ran.returncode}")
        return ran

    def base(self, crate):
        """The folder of what a check of the crate as it stands proved, or None where it isn't proved."""
        with self.turns[crate.name]:
            if crate.name not in self.bases:
                folder = os.path.join(crate.folder, "out", "mutants")
                kept, mark, total = os.path.join(folder, "kept"), os.path.join(folder, "sum"), self.prover.crates.sum(crate.name)
                if read(mark) != total:
                    shutil.rmtree(folder, ignore_errors=True)
                    os.makedirs(kept)
                    if self.check(crate, {}, kept).returncode == 0:
                        write(mark, total)
                self.bases[crate.name] = kept if read(mark) == total else None
            return self.bases[crate.name]

    def judge(self, item, ran):
        """How a check of a mutant ended, and what it said of that."""
        last = last_line(ran.stdout)
        if ran.returncode == 0 and last.startswith("logic=proved"):
            return PROVED, ""
        if ran.returncode != 1:
            return UNTOLD, f"status {ran.returncode}: {last}"
        if not last.startswith("logic=not-proved"):
            return UNFIT, f"it did not reach the prover: {last}"
        files = {os.path.relpath(path, item.crate.folder): module for module, path, _ in specs_of(item.crate)}
        own = {it.place: it.definition for it in items_of([item.crate]).values()}
        proofs = ""
        for file, line, said in ERROR.findall(ran.stdout):
            at = [it for place, it in own.items() if place.endswith(f"/{file}:{it.declared.line()}") and it.stands_at(int(line))]
            if file not in files or not at or at[0].defines:
                return UNFIT, f"{file}:{line}: {said}"
            proofs = f"{file}:{line}: {said}"
        told = [it for it in OF_PROOF.findall(ran.stdout) if not LOST.search(it)]
        told += [f"{name}: {said}" for name, said in TOLD.findall(ran.stdout) if "did not prove" in said]
        if proofs or told:
            return BY_VALUE, " ".join((proofs or told[0]).split())
        return BY_NAME, " ".join((OF_PROOF.findall(ran.stdout) or [last])[0].split())

    def try_mutant(self, item, mutant, base):
        """How a mutant is noticed, and what was said of that."""
        texts, room = {item.file: mutant.over(item.text)}, tempfile.mkdtemp()
        try:
            linked(base, room)
            for _ in range(MOST_MENDED):
                ran = self.check(item.crate, texts, room)
                proofs = mended(item, mutant, texts, ran.stdout)
                if not proofs:
                    break
                texts.update(proofs)
            how, words = self.judge(item, ran)
            if how == PROVED:
                words = self.edit_proved(item, texts, room)
                how = BY_VALUE if words else PROVED
            if how == PROVED and self.looks_above:
                words = self.not_proved_above(item, texts)
                how = BY_VALUE if words else PROVED
            return how, words
        except Killed as error:
            return UNTOLD, str(error)
        finally:
            shutil.rmtree(room, ignore_errors=True)

    def edit_proved(self, item, texts, kept):
        """A wrong edit that is proved with a mutant's texts, in words, or nothing."""
        for batch, edited in batches(edits_resting_on(item), lambda it: it.wrong):
            flags = [f"--only={it}" for it in sorted({at for it in batch for at in it.wrong.named})]
            told = dict(TOLD.findall(self.check(item.crate, {**edited, **texts}, kept, flags).stdout))
            for it in batch:
                if all(is_told_proved(at, told, item.crate.name) for at in it.wrong.named):
                    return f"the wrong edit {it.label} is proved with it"
        return ""

    def not_proved_above(self, item, texts):
        """A crate above that isn't proved with a mutant's texts, in words, or nothing."""
        with tempfile.TemporaryDirectory() as room, tempfile.TemporaryDirectory() as folder:
            copy_of(None, room)
            linked_store(folder)
            for file, text in texts.items():
                write(os.path.join(room, "crates", item.crate.name, file), text)
            for name in crates_naming(item, self.prover.crates):
                words = [sys.executable, "gate/prove.py", "--libraries", name]
                how = {"stdin": subprocess.DEVNULL, "stdout": subprocess.DEVNULL, "stderr": subprocess.DEVNULL}
                if subprocess.run(words, cwd=room, env={**os.environ, "FOWLYORE_CACHE": folder}, **how).returncode:
                    return f"the crate {name} isn't proved with it"
        return ""

    def try_item(self, item):
        """Tries a definition's mutants. Returns how many were made, how many fit and were noticed by name, and the names of
        those that nothing notices; or None where the crate isn't proved as it stands, or a check ended without a verdict."""
        made = [*item.definition.mutants()]
        base = self.base(item.crate) if made else None
        if made and not base:
            print(f"FAILED: {item.name}: {item.crate.name} isn't proved as it stands, so no mutant was tried", flush=True)
            return None
        ways = {it: [] for it in (UNFIT, PROVED, BY_VALUE, BY_NAME, UNTOLD)}
        for it in made:
            before = time.monotonic()
            how, words = self.try_mutant(item, it, base)
            ways[how].append(it.name)
            said = words[:200] if words else f"[{it.told(item.text)}]"
            print(f"mutants: {item.name}: {it.name}: {how}: {said} ({time.monotonic() - before:.0f} s)", flush=True)
        if ways[UNTOLD]:
            print(f"FAILED: {item.name}: of {len(ways[UNTOLD])} of its mutants nothing could be told", flush=True)
            return None
        return len(made), len(made) - len(ways[UNFIT]), len(ways[BY_NAME]), ways[PROVED]


def linked_store(folder):
    """A store that has what the store has."""
    here = Store(folder)
    for kind in ("packed", "told"):
        for it in os.listdir(os.path.join(default_folder(), kind)):
            os.symlink(os.path.join(default_folder(), kind, it), here.path(kind, it))


class Run:
    """Tries the mutants of definitions, and writes what came of each as it ends."""

    def __init__(self, items, chosen, looks_above, is_again):
        self.items, self.chosen, self.is_again = items, chosen, is_again
        self.trial = Trial(prover_of(False), looks_above)
        self.turn, self.passed, self.failed = threading.Lock(), 0, 0

    def run(self):
        lists = Lists()
        if lists.is_new():
            lists.begin(self.items)
            lists.write()
        crates = {it.crate.name for it in self.chosen if [*it.definition.mutants()]}
        if crates and not self.trial.begin(crates):
            print("FAILED: the libraries below aren't proved, so no mutant was tried\n0 passed, 1 failed")
            return 1
        tasks = {}
        for it in self.chosen:
            seconds = SECONDS + SECONDS_A_MUTANT * len([*it.definition.mutants()])
            tasks[it.name] = Task([], seconds, it.crate.memory(), lambda _given, _jobs, it=it: self.try_item(it), most_jobs=1)
        self.trial.prover.run(tasks)
        print(f"{self.passed} passed, {self.failed} failed")
        return 1 if self.failed else 0

    def try_item(self, item):
        found = self.trial.try_item(item)
        with self.turn:
            if found is None:
                self.failed += 1
                return
            made, fit, by_name, unnoticed = found
            # (read anew, since a person may have given reasons meanwhile)
            lists = Lists()
            if not self.is_again or not lists.is_tried(item):
                lists.take(item, fit, made, by_name, unnoticed)
                lists.drop(self.items)
                lists.write()
            for it in unnoticed:
                reason = lists.unnoticed.get(f"{item.name}: {it}", NO_REASON)
                if reason == NO_REASON:
                    print(f"FAILED: {item.name}: {it}: nothing notices it, and tests/unnoticed.txt has no reason", flush=True)
                self.failed += reason == NO_REASON
                self.passed += reason != NO_REASON
            self.passed += fit - len(unnoticed)


def chosen_of(items, crates, names, is_again):
    """The definitions that words name, or those that weren't tried as they stand, or that were; or a sentence."""
    lists = Lists()
    if not names:
        return [it for it in items.values() if is_again or not lists.is_tried(it)]
    chosen = {}
    for name in names:
        found = {it.name: it for it in items.values() if it.name == name or it.name.startswith(f"{name}.")}
        if not found and name not in crates:
            return f"there is no definition, module or crate {name}"
        chosen.update(found)
    return [it for it in chosen.values() if not is_again or lists.is_tried(it)]


def main(words):
    mode = words[0] if words[:1] in (["--above"], ["--again"], ["--listed"]) else ""
    names, crates = words[bool(mode) :], Crates()
    if any(it.startswith("-") for it in names) or mode == "--listed" and names or mode == "--above" and not names:
        print(__doc__, file=sys.stderr)
        return 2
    items = items_of(crates.values())
    if mode == "--listed":
        return judged(items)
    chosen = chosen_of(items, crates, names, mode == "--again")
    if isinstance(chosen, str):
        print(f"mutants: {chosen}", file=sys.stderr)
        return 2
    room = end_on_signals()
    try:
        return Run(items, chosen, mode == "--above", mode == "--again").run()
    except (toolchain.Unknown, Misfit, Killed) as error:
        print(f"FAILED: {error}, so no mutant was tried\n0 passed, 1 failed")
        return 1
    finally:
        shutil.rmtree(room, ignore_errors=True)


if __name__ == "__main__":
    sys.exit(main(sys.argv[1:]))
