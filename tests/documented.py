#!/usr/bin/env python3
"""Runs the command lines of the documents, and compares what they write with what stands there.

    documented.py PROGRAM

A command line stands behind `    $ ` in README.md or in a page of docs/ or examples/, and what it writes in the indented lines
below. PROGRAM is run in place of `./reqs` and `./try`. A line is printed for each that differs; the last line is
`documented: N passed, M failed`. tests/least.txt says how many there are at least. The lines of docs/C.md are run by c.py,
the Python sessions and the lines of `fowlyore` by python/tests/test_documents.py.
"""

import re
import shlex
import subprocess
import sys
from pathlib import Path

import runs

TOP = Path(__file__).resolve().parents[1]
PAGES = ("README.md", "docs/*.md", "examples/*.md", "examples/*/*.md")
OTHERS = {TOP / "docs" / "C.md"}
# What these run is installed: release.sh does so in an environment of its own.
OF_PACKAGES = ("    $ pip install ", "    $ fowlyore ")


def examples():
    """The command lines: the page, the line and what it writes."""
    for page in sorted({it for of in PAGES for it in TOP.glob(of)} - OTHERS):
        lines = page.read_text(encoding="utf-8").splitlines()
        for at, line in enumerate(lines):
            if line.startswith("    $ ") and not line.startswith(OF_PACKAGES):
                written = []
                for below in lines[at + 1 :]:
                    if not below.startswith("    ") or below.startswith("    $ "):
                        break
                    written.append(below[4:] + "\n")
                yield page.relative_to(TOP), line[6:], "".join(written)


def differs(program, command, written):
    """How an example ends otherwise than it says."""
    how = {"capture_output": True, "timeout": runs.HANGS, "text": True, "cwd": TOP, "stdin": subprocess.DEVNULL}
    line = re.sub(r"\./(?:reqs|try) ", lambda _: f"{shlex.quote(program)} ", command)
    done = subprocess.run(["bash", "-c", line], **how)
    return [] if done.stdout + done.stderr == written else [f"it writes {done.stdout + done.stderr!r}"]


def count():
    """How many command lines there are."""
    return sum(1 for _ in examples())


def tried(program):
    """What each command line is, and what is wrong with it."""
    for page, command, written in examples():
        yield f"{page}: {command}", differs(program, command, written)


if __name__ == "__main__":
    sys.exit(runs.command(__doc__, "documented", tried))
