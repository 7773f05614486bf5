#!/usr/bin/env python3
"""Measures what a first answer, the program and the library for C take.

    building.py answer [--write]
    building.py program --cores-are fast|slow [--write]
    building.py library [--write]

`answer` times the first answer of README.md, by `./try` in a fresh clone of what is committed here; `program` has the program
proved and built in such a clone, over a store that is empty, which takes up to an hour. What README.md says of that it says of
two kinds of cores, of which `--cores-are` names the machine's. `library` tells the sizes of libreqs.so and libreqs.a in
crates/reqs_c/out, where `./build reqs_c` makes them. With `--write` the figures go to bench/figures.json.
"""

import argparse
import os
import re
import subprocess
import sys
import tempfile
import time

sys.dont_write_bytecode = True
import figures

FIRST = ["./try", "check", *(f"examples/first/{it}" for it in ("requirements.txt", "environment.json", "candidates.txt"))]
ANSWER, BUILT = "foo-bar 1.19\n", ["./reqs", "--version"]
VERSION = re.compile(r'const VERSION: &str = "([\d.]+)"')
FOLDER = os.path.join(figures.TOP, "crates", "reqs_c", "out")
LIBRARY = {"building.shared": "libreqs.so", "building.archive": "libreqs.a"}


def version():
    with open(os.path.join(figures.TOP, "crates", "reqs_command", "src", "request.rt"), encoding="utf-8") as file:
        return f"reqs {VERSION.search(file.read())[1]}"


def seconds(command, begins=""):
    """How long a command takes in a fresh clone with an empty store, whose output has to begin so."""
    with tempfile.TemporaryDirectory(prefix="reqs-building-") as room:
        clone, store = os.path.join(room, "clone"), os.path.join(room, "store")
        subprocess.run(["git", "clone", "-q", figures.TOP, clone], check=True)
        began = time.monotonic()
        ran = subprocess.run(command, cwd=clone, env={**os.environ, "FOWLYORE_CACHE": store}, stdout=subprocess.PIPE, text=True)
        took = time.monotonic() - began
    if ran.returncode or not ran.stdout.startswith(begins):
        sys.exit(f"building.py: {' '.join(command)}: status {ran.returncode}: {ran.stdout[:200]}")
    return took


def sizes():
    for name, file in LIBRARY.items():
        path = os.path.join(FOLDER, file)
        if not os.path.isfile(path):
            sys.exit(f"building.py: no {path}; ./build reqs_c at the top makes it")
        yield name, (os.path.getsize(path) / 1e6, "MB", file)


def main():
    parser = argparse.ArgumentParser(description=__doc__, formatter_class=argparse.RawDescriptionHelpFormatter)
    parser.add_argument("what", choices=("answer", "program", "library"))
    parser.add_argument("--cores-are", choices=("fast", "slow"))
    words = figures.read_words(parser)
    if (words.what == "program") != bool(words.cores_are):
        parser.error("--cores-are is told of the program, and of it alone")
    if words.what == "answer":
        found = {"building.answer": (seconds(FIRST, ANSWER), "s", version())}
    elif words.what == "program":
        found = {f"building.program.{words.cores_are}": (seconds(BUILT, version()) / 60, "minutes", version())}
    else:
        found = dict(sizes())
    for name, (value, unit, of) in found.items():
        print(f"{name}: {value:.3g} {unit} ({of})")
    if words.write:
        figures.put(found)


if __name__ == "__main__":
    main()
