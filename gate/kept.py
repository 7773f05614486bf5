"""The everyday way to prove crates: what was proved before is taken where it still holds.

A library that is made so holds its proofs, not statements alone, and names no sums of those below. It goes under the sum of
what its check sees: its own texts, and of those below all but the bodies of functions and the proofs of these (seen.py). So
after a change of bodies alone the crate itself is proved, and what is linked with it: programs, tests, the library for C.

Where more changed, a crate whose own texts are the same is proved through its kept work, the folder of `rattle
--incremental`: its modules as they were checked. The prover judges of each module whether it still holds over the crates
below as they are now, and checks the others anew. A crate whose own texts are new has no kept work, so that each of its
modules is checked; so has none where the store is empty.

The tests of a crate that have no kept work begin with that of their library, which has the same texts, so that nothing is
proved twice: they wait for it.

None is made before those below are there, and what lay in out/ is removed first. What a run from nothing proved is taken
only where all below it are, since its libraries hold statements alone, which fit just those over which they were made.

A crate of which the store never had a proof is proved as a run from nothing does: a check near the top takes some seconds to
load statements, and minutes to load whole libraries. So an empty store is filled in a third less time. It goes under a name of its
own, since this script judges it, on which no entry of a run from nothing rests.
"""

import os
import re
import shutil
import tempfile
from concurrent.futures import ThreadPoolExecutor

import keys
import linked
import seen
import toolchain
from prover import LIBRARY, MARK, PROGRAM, SECONDS, SECONDS_A_LINE, STATIC, TESTS, Prover, read, write
from store import Store

WORK = "work"
# The kind of a library that no crate uses: it is checked and not written, which takes six times as long where it passes on what
# is below it. The file in out/ by which it is known for proved.
UNUSED = "unused"
# The scripts that say so of a library by what its check sees.
OF_SEEN = (*keys.OF_KEPT, "gate/clauses.py", "gate/seen.py", "gate/statements.py")
# The forms of what is proved, by a run from nothing, and by one of every day at first and then, and which those of the libraries
# below may have.
NOTHING, FIRST, WHOLE = "nothing", "first", "whole"
FITS = {NOTHING: {NOTHING}, FIRST: {NOTHING, FIRST}, WHOLE: {NOTHING, FIRST, WHOLE}}
# The word of a verdict that rests on kept work. All other words are held to `rt`'s rules as they are.
TRUSTED = re.compile(r" incremental=trusted\n\Z")
CHECKED = re.compile(r"^crate (\w+): modules loaded=\d+ checked=(\d+)$", re.M)
# What of the memory that is reckoned a check over statements takes, as measured.
OVER_STATEMENTS = 0.6
# What a line takes by one job where kept work is there, what a line of the crates below takes, whose libraries are loaded
# whole, and what loading takes of the memory of a check that proves.
SECONDS_A_LINE_KEPT, SECONDS_A_LINE_BELOW, LOADED = 0.03, 0.0015, 0.75


class Verdict:
    """What `rt` holds the last line of a check to, with one word more allowed."""

    def __init__(self, pattern):
        self.pattern = pattern

    def search(self, said):
        return self.pattern.search(TRUSTED.sub("\n", said))


def prover_of(is_from_nothing):
    """The way to prove of a run from nothing, which takes nothing from the store, or of an everyday run."""
    rt = toolchain.load()
    return Unmarking(rt, Store(reads=False)) if is_from_nothing else KeptProver(rt, Store())


class Unmarking(Prover):
    """Proves so that what an earlier run built in the tree is known no more once something else may stand there."""

    def take_or_prove(self, crate, flags, tests):
        if self.kind(crate.name, tests) in (PROGRAM, STATIC):
            # (it isn't removed, since a run of all crates gives back what isn't there)
            os.makedirs(os.path.join(crate.folder, "out"), exist_ok=True)
            write(os.path.join(crate.folder, "out", MARK), "")
        return super().take_or_prove(crate, flags, tests)


class KeptProver(Unmarking):
    """Proves crates through kept work where the store has none of them."""

    def __init__(self, rt, store):
        super().__init__(rt, store)
        rt.rtlib.VERDICT = Verdict(rt.rtlib.VERDICT)
        self.forms, self.through, self.written = {}, [], {}
        # (whoever asks for libraries gets each)
        self.writes_all = True
        # (what is proved above doesn't wait until kept work is packed)
        self.pool, self.packed = ThreadPoolExecutor(1), {}

    def kind(self, name, tests=False):
        kind = super().kind(name, tests)
        if kind != LIBRARY or self.writes_all or any(name in it.uses for it in self.crates.values()):
            return kind
        return LIBRARY if self.is_written(name) else UNUSED

    def is_written(self, name):
        """Whether the store has it as a library over those that are there, as a run from nothing leaves each, and a tree where
        another crate uses it."""
        if name not in self.written:
            below, parts = {self.form(it) for it in self.crates[name].uses}, [f"rlib/{name}.rlib"]
            has = lambda form: below <= FITS[form] and self.store.has(self.entry_of(form, name, LIBRARY), parts)
            self.written[name] = any(has(it) for it in FITS)
        return self.written[name]

    def parts(self, name, tests=False):
        return [UNUSED] if self.kind(name, tests) == UNUSED else super().parts(name, tests)

    def form(self, name, tests=False):
        """In which form a crate or its tests are taken, or else proved."""
        key = name, tests
        if key not in self.forms:
            self.forms[key] = self.form_in_tree(name, tests) or self.form_by_store(name, tests)
        return self.forms[key]

    def form_in_tree(self, name, tests):
        """The form of a program, or of a library for C, that lies in the tree as it is now; or None. So whoever builds in the tree
        over another store, as another user who installs it, finds it there."""
        if tests or self.kind(name) not in (PROGRAM, STATIC):
            return None
        out = os.path.join(self.crates[name].folder, "out")
        mark, is_there = read(os.path.join(out, MARK)), all(os.path.isfile(os.path.join(out, it)) for it in self.parts(name))
        return next((it for it in FITS if is_there and self.entry_in(it, name, tests) == mark), None)

    def form_by_store(self, name, tests):
        """The form of a run from nothing, or of a first proof, where those below fit, and the store has that; or that of a first proof
        where it had no proof of the crate yet, which costs least so. What changes after it will change again, and is proved whole;
        so are tests beside a library that is, which begin with that."""
        below = {self.form(it) for it in self.crates[name].uses}
        for it in (NOTHING, FIRST):
            if below <= FITS[it] and self.store.has(self.entry_in(it, name, tests), self.parts(name, tests)):
                return it
        is_known = self.store.verdict(self.mark(name, tests)) or self.begins_with_library(name, tests) and self.form(name) == WHOLE
        return FIRST if below <= FITS[FIRST] and not is_known else WHOLE

    def entry_in(self, form, name, tests):
        return self.entry_of(form, name, self.kind(name, tests))

    def entry_of(self, form, name, kind):
        """The name in the store of what was proved in a form of a crate, or of its tests, by its kind."""
        if form == NOTHING:
            return f"{keys.of_proof(self.crates, name)}.{kind}"
        if form == FIRST:
            return f"{keys.summed((keys.of_proof(self.crates, name), keys.scripts_sum(keys.OF_KEPT)))}.{kind}.first"
        if kind in (LIBRARY, UNUSED):
            return f"{keys.summed((seen.by(self.crates, name), keys.scripts_sum(OF_SEEN)))}.{kind}.whole"
        return f"{keys.of_everyday_proof(self.crates, name)}.{kind}.whole"

    def entry(self, name, tests=False):
        return self.entry_in(self.form(name, tests), name, tests)

    def work_entry(self, name, tests):
        """The name of a crate's kept work, which is its own as long as its texts are; what else it rests on the prover looks at."""
        own = keys.summed((seen.code_sum(self.crates[name]), self.crates.around(), keys.scripts_sum(OF_SEEN)))
        return f"{own}.{self.kind(name, tests)}.{WORK}"

    def begins_with_library(self, name, tests):
        """Whether these are tests beside a library that other crates use, and not a crate of tests."""
        return tests and self.kind(name) == LIBRARY and any(name in it.uses for it in self.crates.values())

    def only_loads(self, name, tests):
        """Whether a check does little but load."""
        is_made = self.begins_with_library(name, tests) and self.form(name) == WHOLE
        return self.form(name, tests) == WHOLE and (is_made or self.store.has(self.work_entry(name, tests), ()))

    def in_lanes(self, tasks):
        """Does as a run from nothing does, where tests wait for the library that they begin with."""
        made, self.writes_all = {}, any(isinstance(key, str) for key in tasks)
        for key, (waits, *rest) in tasks.items():
            waits_more = not isinstance(key, str) and self.begins_with_library(key[0], key[1] == TESTS)
            made[key] = [*waits, (key[0], "proof")] if waits_more else waits, *rest
        return super().in_lanes(made)

    def loading(self, name):
        return SECONDS_A_LINE_BELOW * sum(it.lines() for it in self.crates.below(name) if self.form(it.name) == WHOLE)

    def seconds(self, name, tests, lines):
        if self.only_loads(name, tests):
            return SECONDS + self.loading(name) + SECONDS_A_LINE_KEPT * lines
        kind = self.kind(name, tests)
        return SECONDS + self.loading(name) + SECONDS_A_LINE[LIBRARY if kind == UNUSED else kind] * lines

    def memory(self, name, tests, reckoned):
        # (a program is built by two compilers at a time)
        builds = 2 if self.kind(name, tests) == PROGRAM else 1
        if self.only_loads(name, tests):
            return builds * LOADED * reckoned
        is_less = self.form(name, tests) != WHOLE and self.kind(name, tests) in (LIBRARY, UNUSED)
        return OVER_STATEMENTS * reckoned if is_less else reckoned

    def run(self, tasks):
        """Does as a run from nothing does, where checks of edits over statements take less memory."""
        for key, task in tasks.items():
            is_of_edits = len(key) == 3 and key[1] == "edits"
            if is_of_edits and all(self.form(it) != WHOLE for it in self.crates[key[0]].uses):
                task.memory *= OVER_STATEMENTS
        return super().run(tasks)

    def most_jobs(self, name, tests):
        # (loading is done by one)
        return 1 if self.only_loads(name, tests) else super().most_jobs(name, tests)

    def prove(self, crate, flags, tests):
        form = self.form(crate.name, tests)
        if not {self.form(it) for it in self.crates[crate.name].uses} <= FITS[form]:
            print(f"gate: {crate.name} can't be proved as {form} over the libraries that are there", file=crate.out)
            return 1
        if form != WHOLE:
            return self.check(crate, flags) if self.kind(crate.name, tests) == UNUSED else super().prove(crate, flags, tests)
        entry = self.work_entry(crate.name, tests)
        room = tempfile.mkdtemp(prefix="reqs-kept-")
        work = os.path.join(room, WORK)
        is_there = self.store.take(entry, room, [WORK])
        begins = not is_there and self.begins_with_library(crate.name, tests) and self.take_of_library(crate.name, room)
        os.makedirs(work, exist_ok=True)
        status, said = self.prove_over(crate, flags, tests, work)
        anew = sum(int(count) for name, count in CHECKED.findall(said) if name == crate.name)
        if is_there or begins:
            self.through.append(f"{crate.name} ({anew} modules anew)")
        is_new = status == 0 and (anew or not is_there)
        self.packed[crate.name, tests] = self.pool.submit(self.pack, entry if is_new else None, room)
        return status

    def check(self, crate, flags, *words):
        """Checks a crate, leaves a mark in out/ that it is proved, and gives a status."""
        status = crate.prove(["check", *crate.words(flags, keeps=False), *words])
        if status == 0:
            write(os.path.join(crate.folder, "out", UNUSED), "")
        return status

    def take_of_library(self, name, room):
        """Lays the kept work of a crate's library into a folder, once it is packed, and says whether it is there."""
        if (name, False) in self.packed:
            self.packed[name, False].result()
        return self.store.take(self.work_entry(name, False), room, [WORK])

    def pack(self, entry, room):
        """Keeps the kept work of a folder under a name, if there is one, and removes the folder."""
        if entry:
            self.store.keep(entry, room, [WORK])
        shutil.rmtree(room, ignore_errors=True)

    def prove_over(self, crate, flags, tests, work):
        """Proves over kept work, and gives a status and what was said."""
        out = crate.out
        with tempfile.TemporaryFile("w+", errors="replace") as crate.out:
            try:
                status = self.build(crate, flags, tests, work)
            finally:
                said, crate.out = crate.out, out
            said.seek(0)
            text = said.read()
        print(text, end="", file=out, flush=True)
        return status, text

    def build(self, crate, flags, tests, work):
        kind = self.kind(crate.name, tests)
        if kind == UNUSED:
            return self.check(crate, flags, "--incremental", work)
        words = [*crate.words(flags, tests=tests, keeps=False), "--incremental", work]
        if kind != LIBRARY:
            return linked.build(crate, kind, words, work)
        shutil.rmtree(os.path.dirname(crate.rlib), ignore_errors=True)
        os.makedirs(os.path.dirname(crate.rlib))
        return crate.prove(["build", *words, "-o", crate.rlib])

    def told(self):
        for it in self.packed.values():
            it.result()
        through = f": {', '.join(self.through)}" if self.through else ""
        return f"{super().told()}, {len(self.through)} proved through kept work{through}"
