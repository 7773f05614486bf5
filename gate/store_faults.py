"""Faults of the store and of what is taken from it: each is made in a store of its own, and the gate has to see it."""

import collections
import copy
import os
import pathlib
import re
import shutil
import tempfile
import unittest.mock

import gate
import kept
from crates import TOP
from faults import FAILING, FAILING_TEST, FAULTS, LAST_USE, PROVE, Fault, copy_of, ran
from prover import MARK, read, write
from store import Store

# Scripts that take a crate's tests for proved, and keep that.
SLIP = Fault("tests that are taken for proved", "underline", PROVE, "gate/prover.py", "        # (a library is unpacked once", """\
        if tests:
            write(os.path.join(out, parts[0]), "")
            self.keep(crate, entry, tests)
            remove(os.path.join(out, parts[0]))
            return 0
        # (a library is unpacked once""")
# Prints the name of the entry of a crate's tests.
ENTRY = """import sys
sys.path.insert(0, "gate")
import kept
print(kept.prover_of(False).entry("underline", True))
"""
# Prints the sum of what a check of `high` sees.
SEEN = """import sys
sys.path.insert(0, "gate")
import seen
from crates import Crates
print(seen.by(Crates(), "high"))
"""
# Keeps libraries as a run from nothing does, and prints whether an everyday run of all crates takes that of `high`, which none uses.
WRITTEN = """import os, sys, tempfile
sys.path.insert(0, "gate")
import kept
everyday, from_nothing = kept.prover_of(False), kept.prover_of(True)
everyday.writes_all = False
with tempfile.TemporaryDirectory() as room:
    for name in everyday.crates:
        os.makedirs(os.path.join(room, "rlib", f"{name}.rlib"))
        from_nothing.store.keep(from_nothing.entry(name), room, ["rlib"])
print(everyday.store.has(everyday.entry("high"), everyday.parts("high")))
"""
# Prints the sum of what the verdicts on an edit of `low` rest on.
AROUND = """import sys
sys.path.insert(0, "gate")
import around
from crates import Crates
from edits import edits_of
crates = Crates()
print(around.by(crates, edits_of(crates["low"])[0]["it_is_one_more"]))
"""
AN_EDIT = "file: src/lib.rt\nold:     helper(x)\nnew:     helper(x) + 1\ncontrol:     { helper(x) }\n"
# Two small crates, one over the other.
HEAD = "//! A crate.\n#![tactic(auto)]\n\nghost use Rattle.std.specs.Prelude.{◌≡◌, ◌≤◌, ◌*◌};\n"
LOW = f"""{HEAD}
/// Twice.
pub fn double(x: u32) -> u32
    requires {{ x ≤ 1000 }}
    ensures {{ result ≡ 2 * x }}
{{
    helper(x)
}}

fn helper(x: u32) -> u32
    requires {{ x ≤ 1000 }}
    ensures {{ result ≡ 2 * x }}
{{
    x + x
}}
"""
HIGH = f"""{HEAD}
use low::double;

/// Four times.
pub fn quadruple(x: u32) -> u32
    requires {{ x ≤ 500 }}
    ensures {{ result ≡ 4 * x }}
{{
    double(double(x))
}}
"""
BODY, CLAUSE = "    x + x\n", "    requires { x ≤ 1000 }\n    ensures { result ≡ 2 * x }\n{\n    helper(x)"
WEAKER = CLAUSE.replace("≡ 2 * x", "≤ 2 * x")
OTHER = "\nfn other(x: u32) -> u32 {\n    x\n}\n"
Tried = collections.namedtuple("Tried", "name why")
BY_KEPT_WORK = re.compile(r"^crate high: modules loaded=[1-9]\d* checked=0$", re.M)
ANEW = re.compile(r"^crate high: modules loaded=0 checked=[1-9]", re.M)


def taken_over():
    """Why the gate takes over a failing test what it may not, or None: what scripts kept that prove no tests, and an entry of
    tests without their program."""
    test = next(it for it in FAULTS if it.new == LAST_USE + FAILING_TEST)
    with tempfile.TemporaryDirectory() as folder, tempfile.TemporaryDirectory(prefix="reqs-faults-") as room:
        copy_of("underline", room)
        test.plant(room)
        SLIP.plant(room)
        status, said = ran(PROVE, room, folder)
        if status:
            return f"the scripts that prove no tests failed: {said[-300:]}"
        shutil.copy2(os.path.join(TOP, SLIP.path), os.path.join(room, SLIP.path))
        status, said = ran(PROVE, room, folder)
        if status == 0 or FAILING not in said:
            return f"what such scripts kept was taken: status {status}: {said[-300:]}"
        name = ran(["-c", ENTRY], room, folder)[1].strip()
        Store(folder).keep(name, room, ["HANDLES"])
        status, said = ran(PROVE, room, folder)
        if status == 0 or FAILING not in said:
            return f"an entry without its program was taken: status {status}: {said[-300:]}"
    return None


def what_entries_rest_on():
    """Why what an everyday run proves goes under the same name when a script that judges it is another, or None."""
    with tempfile.TemporaryDirectory() as folder, tempfile.TemporaryDirectory(prefix="reqs-faults-") as room:
        copy_of("underline", room)
        _, name = ran(["-c", ENTRY], room, folder)
        for script in ("gate/kept.py", "gate/prover.py"):
            with open(os.path.join(room, script), "a", encoding="utf-8") as file:
                file.write("\nOTHER = 0\n")
            _, other = ran(["-c", ENTRY], room, folder)
            if not name.endswith(".first\n") or name == other:
                return f"{script}: {name}"
            shutil.copy2(os.path.join(TOP, script), os.path.join(room, script))
    return None


def built_before():
    """Why a program of other texts is still known by its mark once another one is being laid out or built, or None."""
    for is_from_nothing in (False, True):
        with tempfile.TemporaryDirectory() as folder, tempfile.TemporaryDirectory() as room:
            prover = kept.prover_of(is_from_nothing)
            crate, prover.store = copy.copy(prover.crates["reqs_cli"]), Store(folder)
            crate.folder = room
            os.makedirs(os.path.join(room, "out"))
            write(os.path.join(room, "out", MARK), "the entry of other texts")
            with unittest.mock.patch.object(prover.store, "take", side_effect=InterruptedError):
                try:
                    prover.take_or_prove(crate, [], False)
                except InterruptedError:
                    pass
            if read(os.path.join(room, "out", MARK)) != "":
                return "its mark is there"
    return None


def written():
    """Why an everyday run proves what a run from nothing proved and wrote, a library that no crate uses, or None."""
    with tempfile.TemporaryDirectory() as folder, tempfile.TemporaryDirectory(prefix="reqs-faults-") as room:
        return None if TwoCrates(room, folder).seen(WRITTEN) == "True\n" else "it is proved once more"


def cut_short():
    """Why an entry of the store that is cut short is taken, or None: the crate has to be proved in its place."""
    with tempfile.TemporaryDirectory(prefix="reqs-faults-") as room, tempfile.TemporaryDirectory() as folder:
        copy_of("read_outcome", room)
        entry, parts = kept.prover_of(False).entry("read_outcome"), ["rlib/read_outcome.rlib"]
        store = Store(folder)
        with open(Store().path("packed", f"{entry}.tar.gz"), "rb") as whole:
            with open(store.path("packed", f"{entry}.tar.gz"), "wb") as part:
                part.write(whole.read()[:-1000])
        store.keep_verdict(f"{entry}.sum", Store().verdict(f"{entry}.sum"))
        if store.take(entry, room, parts):
            return "it was taken"
        _, said = ran([*PROVE, "--libraries", "read_outcome"], room, folder)
    return None if "read_outcome: proved" in said else "the crate was not proved anew"


def full():
    """Why an entry that a run found is gone once the store is full, or one that nothing used for long is still there, or None."""
    with tempfile.TemporaryDirectory() as folder, tempfile.TemporaryDirectory() as room:
        store, parts = Store(folder), ["it"]
        pathlib.Path(room, *parts).write_text("it")
        for name in ("found", "unused"):
            store.keep(name, room, parts)
        for path in pathlib.Path(folder).rglob("*.*"):
            os.utime(path, (0, 0))
        is_found = store.has("found", parts)
        with unittest.mock.patch("store.MOST_BYTES", 0):
            store.keep("another", room, parts)
        for name in ("found", "another"):
            if not (is_found and store.take(name, room, parts)):
                return f"the entry {name} is gone"
        return "what nothing used is still there" if store.has("unused", parts) else None


class TwoCrates:
    """A tree of two small crates, `high` over `low`, and a store of its own."""

    def __init__(self, room, folder):
        self.room, self.folder = room, folder
        shutil.copytree(os.path.join(TOP, "gate"), os.path.join(room, "gate"), ignore=shutil.ignore_patterns("__pycache__"))
        shutil.copy2(os.path.join(TOP, "HANDLES"), room)
        self.write("crates.txt", "low:\nhigh: low\n")
        self.write("crates/low/src/lib.rt", LOW)
        self.write("crates/high/src/lib.rt", HIGH)

    def write(self, path, text):
        os.makedirs(os.path.dirname(os.path.join(self.room, path)), exist_ok=True)
        with open(os.path.join(self.room, path), "w", encoding="utf-8") as file:
            file.write(text)

    def proved(self, low):
        """The status of a proof of both crates over a text of `low`, and what it said of `high`."""
        self.write("crates/low/src/lib.rt", low)
        status, _ = ran([*PROVE, "--libraries", "high"], self.room, self.folder)
        with open(os.path.join(self.room, "crates/high/out/prove.log"), encoding="utf-8") as file:
            return status, file.read()

    def amiss(self, low, is_well):
        """Why a proof over a text of `low` didn't end as it has to, or None."""
        status, said = self.proved(low)
        return None if is_well(status, said) else f"status {status}: {said[-300:]}"

    def seen(self, script=SEEN):
        """The sum of what a check of `high` sees, or another that a script prints."""
        status, said = ran(["-c", script], self.room, self.folder)
        if status:
            raise ValueError(said)
        return said

    def damage(self, is_work):
        """Turns a bit of each piece of kept work, or of all else."""
        packed = os.path.join(self.folder, "packed")
        for name in os.listdir(packed):
            if (f".{kept.WORK}." in name) == is_work:
                with open(os.path.join(packed, name), "r+b") as file:
                    file.seek(os.path.getsize(file.name) // 2)
                    byte = file.read(1)[0]
                    file.seek(-1, os.SEEK_CUR)
                    file.write(bytes([byte ^ 1]))


def through_kept_work():
    """What isn't as it has to be of proofs over what was proved before."""
    with tempfile.TemporaryDirectory() as folder, tempfile.TemporaryDirectory(prefix="reqs-faults-") as room:
        tree = TwoCrates(room, folder)
        over = lambda form: lambda status, said: status == 0 and "logic=proved" in said and f"\n{form} low: " in said
        yield Tried("a first proof, over statements", tree.amiss(LOW, over("statements")))
        low = LOW.replace(BODY, "    2 * x\n")
        yield Tried("a first change below, over a whole library", tree.amiss(low, over("library")))
        low = LOW.replace(BODY, "    (x + x)\n")
        yield Tried("a private body below", tree.amiss(low, lambda status, said: status == 0 and not said))
        low = LOW.replace(BODY, "    x + x + 1\n")
        yield Tried("a wrong body below", tree.amiss(low, lambda status, _: status))
        low, is_refused = LOW.replace(CLAUSE, WEAKER), lambda status, said: status and "logic=not-proved" in said
        yield Tried("a contract that is weakened below, over kept work", tree.amiss(low, is_refused))
        low, is_over_work = LOW + OTHER, lambda status, said: status == 0 and BY_KEPT_WORK.search(said)
        yield Tried("another function below, over kept work", tree.amiss(low, is_over_work))
        tree.damage(is_work=True)
        low += OTHER.replace("other", "more")
        yield Tried("kept work that is damaged", tree.amiss(low, lambda status, said: status == 0 and ANEW.search(said)))
        tree.damage(is_work=False)
        shutil.rmtree(os.path.join(room, "crates", "low", "out"))
        yield Tried("libraries that are damaged", tree.amiss(low, lambda status, said: status == 0 and "logic=proved" in said))


def what_a_check_sees():
    """Why the sum of what a check of `high` sees is the same after a change of `low` that it sees, or another after one that it
    doesn't, or None."""
    changed = {
        "a body": (LOW.replace(BODY, "    2 * x\n"), True),
        "a contract": (LOW.replace(CLAUSE, WEAKER), False),
        "a private contract": (LOW.replace("requires { x ≤ 1000 }\n    ensures { result ≡ 2 * x }\n{\n    x", "{\n    x"), False),
        "a signature": (LOW.replace("double(x: u32) -> u32", "double(x: u64) -> u64"), False),
        "a constant": (LOW + "\npub const MOST: u32 = 1000;\n", False),
        "a text that holds no comment": (LOW + '\npub const AT: &str = "//";\n', False),
        "a docstring and a comment": (LOW.replace("/// Twice.\n", "/// Two times.\n\n// As said.\n"), True),
        "a function that a constant may call": (LOW + "\npub const fn most() -> u32 {\n    1000\n}\n", False),
    }
    definition = "limit : Nat := 1\n"
    files = {
        "proofs/double/Answers.antt": (definition, True),
        "proofs/Lemmas.antt": (definition, False),
        "specs/Limits.antt": (definition, False),
    }
    with tempfile.TemporaryDirectory() as folder, tempfile.TemporaryDirectory(prefix="reqs-faults-") as room:
        tree = TwoCrates(room, folder)
        before = tree.seen()
        for name, (text, is_same) in changed.items():
            tree.write("crates/low/src/lib.rt", text)
            if text == LOW or (tree.seen() == before) != is_same:
                return f"{name}: {'another' if is_same else 'the same'} sum"
        tree.write("crates/low/src/lib.rt", LOW)
        for path, (text, is_same) in files.items():
            tree.write(f"crates/low/{path}", text)
            if (tree.seen() == before) != is_same:
                return f"{path}: {'another' if is_same else 'the same'} sum"
            with_file = tree.seen()
            tree.write(f"crates/low/{path}", f"-- Remarks.\n{text}")
            if tree.seen() != with_file:
                return f"{path} with a comment: another sum"
            os.remove(os.path.join(room, "crates", "low", path))
    return None


def what_an_edit_rests_on():
    """Why the sum of what the verdicts on an edit rest on is the same after a change of its crate that the function which it
    changes sees, or another after one that it doesn't, or None."""
    changed = {
        "another body": (LOW.replace(BODY, "    2 * x\n"), True),
        "its own body": (LOW.replace("    helper(x)\n", "    let _ = x;\n    helper(x)\n"), False),
        "a contract": (LOW.replace(CLAUSE, WEAKER), False),
        "a private contract": (LOW.replace("requires { x ≤ 1000 }\n    ensures { result ≡ 2 * x }\n{\n    x", "{\n    x"), False),
        "another function": (LOW + OTHER, False),
        "a comment": (LOW.replace("    helper(x)\n", "    // As said.\n    helper(x)\n"), True),
    }
    with tempfile.TemporaryDirectory() as folder, tempfile.TemporaryDirectory(prefix="reqs-faults-") as room:
        tree = TwoCrates(room, folder)
        tree.write("tests/wrong/low/it_is_one_more.edit", AN_EDIT)
        before = tree.seen(AROUND)
        for name, (text, is_same) in changed.items():
            tree.write("crates/low/src/lib.rt", text)
            if text == LOW or (tree.seen(AROUND) == before) != is_same:
                return f"{name}: {'another' if is_same else 'the same'} sum"
        tree.write("crates/low/src/lib.rt", LOW)
        tree.write("crates/low/proofs/Lemmas.antt", "limit : Nat := 1\n")
        if tree.seen(AROUND) == before:
            return "a lemma: the same sum"
    return None


def tries_less():
    """Why a part passes whose script ends early, or None."""
    for part in gate.parts([])[2]:
        early = gate.Part(part.name, ["bash", "-c", "echo 1 passed, 0 failed", part.words[-1]], counts=part.counts)
        if not gate.judged(early, None, None, lambda _: None)[1]:
            return f"{part.name}: it passed"
    return None


def told():
    """The name of each thing that is tried, and why it isn't as it has to be, or None."""
    yield Tried("an entry that is cut short", cut_short())
    yield Tried("a store that is full", full())
    yield Tried("a failing test that the store knows otherwise", taken_over())
    yield Tried("a part whose script ends early", tries_less())
    yield Tried("what the name of an everyday proof rests on", what_entries_rest_on())
    yield Tried("a program of other texts", built_before())
    yield Tried("a library that a run from nothing wrote, and none uses", written())
    yield Tried("what a check sees of the crates below", what_a_check_sees())
    yield Tried("what the verdict on an edit rests on", what_an_edit_rests_on())
    yield from through_kept_work()
