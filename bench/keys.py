#!/usr/bin/env python3
"""Times `reqs check` on lines each of which asks for a value of its own, beside a native program where one is named.

    keys.py [PROGRAM] [--native PATH] [--lines N] [--runs N] [--write [--native-is TEXT]]

PROGRAM is crates/reqs_cli/out/reqs_cli where none is named (`./build` makes it). A native program is called as
`PATH bench REQUIREMENTS ENVIRONMENT CANDIDATES` and prints the rows. Each of N lines, 20,000 where it isn't said, compares a
version's key, asks for an extra, or does both, joined by `and`. Times are the least processor seconds of several runs of
the whole process. The exit status is 1 where both print other rows, or where 20,000 lines or more take over 0.3 times as
long as natively. With `--write` they go to bench/figures.json, if it is 0; TEXT tells what the native program is.
"""

import argparse
import json
import os
import sys
import tempfile

HERE = os.path.dirname(os.path.abspath(__file__))
sys.dont_write_bytecode = True
sys.path.insert(0, HERE)
import figures
from run import timed
from workload import ENVIRONMENT

VERSION, EXTRA = "python_full_version != '{1}.{0}'", "extra == 'x{0}'"
# The least number of lines for which it is judged how often the native time may be taken.
MANY, TIMES = 20_000, 0.3
KINDS = {"version": VERSION, "extra": EXTRA, "both": f"{VERSION} and {EXTRA}"}


def write_inputs(folder, marker, number):
    lines = [f"foo ; {marker.format(it, it % 100)}" for it in range(number)]
    texts = {"requirements.txt": "\n".join(lines), "environment.json": json.dumps(ENVIRONMENT), "candidates.txt": "foo 1.0\n"}
    for name, text in texts.items():
        with open(os.path.join(folder, name), "w", encoding="ascii") as file:
            file.write(text)
    return [os.path.join(folder, it) for it in texts]


def least(command, out, runs):
    """The least processor seconds, and what is printed."""
    seconds = min(timed(command, out)[1] for _ in range(runs)) / 1e3
    with open(out, "rb") as file:
        return seconds, file.read()


def read_words():
    words = argparse.ArgumentParser(description=__doc__, formatter_class=argparse.RawDescriptionHelpFormatter)
    words.add_argument("program", nargs="?", default=os.path.join(HERE, "..", "crates", "reqs_cli", "out", "reqs_cli"))
    words.add_argument("--native", metavar="PATH")
    words.add_argument("--lines", metavar="N", type=int, default=MANY)
    words.add_argument("--runs", metavar="N", type=int, default=7)
    return figures.read_words(words)


def main():
    words = read_words()
    made, differ, missed = {}, False, False
    print("| each line asks for | seconds |" + (" native | times |" if words.native else ""))
    for kind, marker in KINDS.items():
        with tempfile.TemporaryDirectory() as folder:
            inputs, out = write_inputs(folder, marker, words.lines), os.path.join(folder, "rows")
            ours, rows = least([words.program, "check", *inputs], out, words.runs)
            row, name = [kind, f"{ours:.3f}"], f"keys.{kind}.{words.lines}"
            made[f"{name}.reqs.cpu"] = ours, "s", figures.version_of(words.program)
            if words.native:
                native, others = least([words.native, "bench", *inputs], out, words.runs)
                row += [f"{native:.3f}", f"{ours / native:.2f}"]
                made[f"{name}.native.cpu"] = native, "s", words.native_is
                differ |= others != rows
                row[0] += ", and the rows differ" if others != rows else ""
                is_over = words.lines >= MANY and ours > TIMES * native
                row[-1] += f", at most {TIMES}: MISSED" if is_over else ""
                missed |= is_over
        print("| " + " | ".join(row) + " |", flush=True)
    if words.write and not differ and not missed:
        figures.put(made)
    return 1 if differ or missed else 0


if __name__ == "__main__":
    sys.exit(main())
