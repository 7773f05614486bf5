#!/usr/bin/env python3
"""Proves what the store doesn't hold, and tries beside it the wrong edits that tests/wrong/gate.txt names.

    together.py [--from-nothing]

It does what prove.py and `wrong.py --gate` do, in one: a crate's edits are tried once the libraries below it are there,
on processors that no proof wants. With --from-nothing nothing is taken from the store. It closes with two lines, `N
passed, M failed` of the proofs and `edits: N passed, M failed`.
"""

import os
import shutil
import subprocess
import sys

import toolchain
from crates import TOP
from kept import prover_of
from prover import all_crates
from wrong import Trial, end_on_signals, read_edits


def main(words):
    if words not in ([], ["--from-nothing"]):
        print(__doc__, file=sys.stderr)
        return 2
    try:
        prover = prover_of(bool(words))
    except toolchain.Unknown as error:
        print(f"gate: gate/toolchain.py doesn't know this rt ({error}), so no store is used and no edit tried", file=sys.stderr)
        subprocess.run(["rt", "ci"], cwd=TOP)
        print("edits: 0 passed, 1 failed")
        return 1
    room = end_on_signals()
    # (`rt` runs tests as another user, who has to come to what it writes there)
    os.chmod(room, 0o711)
    edits, amiss = read_edits(prover.crates, [], True)
    trial = Trial(prover, prover.store)
    left = trial.left_of(edits)
    prover.more_tasks = lambda: trial.tasks(left, lambda crate: [(it.name, "proof") for it in prover.crates.below(crate.name)])
    status = all_crates(prover)
    if left and not trial.tried:
        amiss += len(left)
        print("FAILED: no proof was begun, so no edit was tried")
    print(f"wrong: {trial.summary()}")
    print(f"edits: {trial.passed} passed, {trial.failed + amiss} failed")
    shutil.rmtree(room, ignore_errors=True)
    return 1 if status or trial.failed + amiss else 0


if __name__ == "__main__":
    sys.exit(main(sys.argv[1:]))
