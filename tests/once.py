#!/usr/bin/env python3
"""Counts instructions of `reqs matrix`, to see that it evaluates each marker once for an environment, whatever lines have it.

    once.py

All lines have one marker, or it and its negation: once a short one, once a long one. What a hundred environments more cost
is then about the same, since the long one is evaluated a hundred times and not once for each line. Instructions are counted
by valgrind, which is Debian's package `valgrind`; the answers are compared without it too. The last line is
`once: N passed, M failed`.
"""

import json
import os
import re
import shutil
import subprocess
import sys
import tempfile

from rows import USUAL

PROGRAM = os.path.join(os.path.dirname(os.path.abspath(__file__)), "..", "crates", "reqs_cli", "out", "reqs_cli")
LINES, FEW, MANY, COMPARISONS = 200, 1, 101, 60
# How many times as much these environments may cost with the long marker.
MOST = 1.5
COLLECTED = re.compile(r"Collected : (\d+)")
# The environment's system has none of these letters.
MARKER, NEGATION = "'z{}' not in platform_system", "'z{}' in platform_system"


def lists(comparisons, with_negation):
    """Requirements with markers of so many comparisons, candidates for them, and the rows of an answer."""
    numbers = range(comparisons)
    holds = " and ".join(MARKER.format(it) for it in numbers)
    fails = " or ".join(NEGATION.format(it) for it in numbers)
    names = [f"p{number:03}" for number in range(LINES)]
    applies = [not with_negation or number % 2 == 0 for number in range(LINES)]
    lines = [f"{name} ; {holds if it else fails}\n" for name, it in zip(names, applies)]
    rows = [f"{name} 1.0\n" for name, it in zip(names, applies) if it]
    return "".join(lines), "".join(f"{name} 1.0\n" for name in names), "".join(rows)


def command(folder, comparisons, with_negation, environments):
    """Writes the inputs, and returns the words that answer them, and the answer."""
    lines, candidates, rows = lists(comparisons, with_negation)
    texts = {"lines": lines, "environments": json.dumps([USUAL] * environments), "candidates": candidates}
    for name, text in texts.items():
        with open(os.path.join(folder, name), "w", encoding="ascii") as file:
            file.write(text)
    answer = "".join(f"env {number + 1}\n{rows}" for number in range(environments))
    return [PROGRAM, "matrix", *(os.path.join(folder, name) for name in texts)], answer


def is_answered(words, answer):
    done = subprocess.run(words, capture_output=True, text=True, check=False)
    return (done.returncode, done.stdout, done.stderr) == (0, answer, "")


def instructions(words):
    """How many instructions a command takes."""
    counting = ["valgrind", "--tool=callgrind", "--callgrind-out-file=/dev/null", *words]
    done = subprocess.run(counting, capture_output=True, text=True, check=True)
    return int(COLLECTED.search(done.stderr)[1])


def main():
    passed, faults, costs = 0, [], {}
    counts = shutil.which("valgrind") is not None
    for with_negation in (False, True):
        for comparisons in (1, COMPARISONS):
            with tempfile.TemporaryDirectory(prefix="reqs-once-") as folder:
                for environments in (FEW, MANY):
                    words, answer = command(folder, comparisons, with_negation, environments)
                    if is_answered(words, answer):
                        passed += 1
                    else:
                        faults.append(f"{comparisons} comparisons, {environments} environments: another answer")
                    if counts:
                        costs[comparisons, environments] = instructions(words)
        if counts:
            short, long = (costs[it, MANY] - costs[it, FEW] for it in (1, COMPARISONS))
            if long <= MOST * short:
                passed += 1
            else:
                faults.append(f"{MANY - FEW} environments more take {long} instructions with long markers, {short} with short ones")
    if not counts:
        print("not tried: instructions, by valgrind, which is not on the PATH (Debian's package valgrind)")
    print(*[f"FAILED: {it}" for it in faults], f"once: {passed} passed, {len(faults)} failed", sep="\n")
    return 1 if faults else 0


if __name__ == "__main__":
    sys.exit(main())
