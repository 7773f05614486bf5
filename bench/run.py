#!/usr/bin/env python3
"""Measures `reqs check` beside Python's packaging, and beside a native program where one is named.

    run.py [PROGRAM] [--full] [--native PATH] [--only NAME,..] [--sizes N,..] [--runs N] [--seed N]
           [--folder FOLDER] [--write [--native-is TEXT]]

PROGRAM is crates/reqs_cli/out/reqs_cli where none is named. A native program is called as
`PATH bench REQUIREMENTS ENVIRONMENT CANDIDATES` and prints the rows. All have to print the same
rows. Times are the least of several runs of the whole process. With `--write` wall times and peaks go
to bench/figures.json where the rows are right; TEXT tells what the native program is.
"""

import argparse
import ctypes
import os
import subprocess
import sys
import tempfile
import time

HERE = os.path.dirname(os.path.abspath(__file__))
sys.dont_write_bytecode = True
sys.path.insert(0, HERE)
import figures
from workload import write_workload

SET_CHILD_SUBREAPER = 36
PACKAGING = [sys.executable, os.path.join(HERE, "packaging_check.py")]


def timed(command, out):
    """Runs the command, its output going to the file. Returns wall and processor time, in ms."""
    with open(out, "wb") as rows, tempfile.TemporaryFile() as said:
        began = time.perf_counter()
        process = subprocess.Popen(command, stdin=subprocess.DEVNULL, stdout=rows, stderr=said)
        _, status, usage = os.wait4(process.pid, 0)
        wall = time.perf_counter() - began
        process.returncode = os.waitstatus_to_exitcode(status)
        if process.returncode:
            said.seek(0)
            text = said.read().decode(errors="replace")
            sys.exit(f"{' '.join(command)}: status {process.returncode}\n{text}")
    return wall * 1e3, (usage.ru_utime + usage.ru_stime) * 1e3


def peak(command, ends=0):
    """Runs the command, which ends with a status, and returns the most memory that it held, in KiB.

    The system counts for a process also what its parent held when it was started. So a small shell
    starts the command and ends; the command's process then becomes a child of this one. It waits for
    a line till then, since the shell would take the status of a command that ends before it.
    """
    if ctypes.CDLL(None, use_errno=True).prctl(SET_CHILD_SUBREAPER, 1, 0, 0, 0):
        sys.exit(f"run.py: prctl: {os.strerror(ctypes.get_errno())}")
    waiting = 'read -r line <&3; exec "$@" >/dev/null 2>&1 </dev/null 3<&-'
    script = "exec 3<&0; { " + waiting + "; } & echo $!"
    words = ["/bin/sh", "-c", script, "sh", *command]
    with subprocess.Popen(words, stdin=subprocess.PIPE, stdout=subprocess.PIPE) as shell:
        process = int(shell.stdout.readline())
        if shell.wait():
            sys.exit(f"run.py: the shell: status {shell.returncode}")
        shell.stdin.write(b"\n")
    _, status, usage = os.wait4(process, 0)
    if os.waitstatus_to_exitcode(status) != ends:
        sys.exit(f"{' '.join(command)}: status {os.waitstatus_to_exitcode(status)}")
    return usage.ru_maxrss


def numbers(text):
    return [int(word) for word in text.replace("_", "").split(",")]


def read_words():
    words = argparse.ArgumentParser(
        description=__doc__, formatter_class=argparse.RawDescriptionHelpFormatter
    )
    program = os.path.join(HERE, "..", "crates", "reqs_cli", "out", "reqs_cli")
    words.add_argument("program", nargs="?", default=os.path.normpath(program))
    words.add_argument("--full", action="store_true", help="lines of every kind, with markers")
    words.add_argument("--native", metavar="PATH")
    words.add_argument("--only", metavar="NAME,..", help="of reqs, native, packaging")
    words.add_argument("--sizes", metavar="N,..", type=numbers, default=[1000, 10000, 100000],
                       help="numbers of candidates; there are a tenth as many lines")
    words.add_argument("--runs", metavar="N", type=int, default=15,
                       help="of packaging, which takes seconds, a third as many")
    words.add_argument("--seed", metavar="N", type=int, default=7)
    words.add_argument("--folder", metavar="FOLDER", help="where the workloads are kept")
    return figures.read_words(words)


def heads_of(words):
    """How each program is called that is measured."""
    heads = {"reqs": [words.program, "check"], "packaging": PACKAGING}
    if words.native:
        heads["native"] = [words.native, "bench"]
    if words.only:
        chosen = words.only.split(",")
        if set(chosen) - set(heads):
            sys.exit(f"run.py: --only takes names of {', '.join(heads)}")
        heads = {name: heads[name] for name in chosen}
    for name in ("reqs", "native"):
        if name in heads and not os.access(heads[name][0], os.X_OK):
            sys.exit(f"run.py: no program at {heads[name][0]}" + (
                "; ./reqs --help at the top builds it" if name == "reqs" else ""))
    return heads


def measured(heads, words, size, folder):
    """What each program takes, and what it prints: wall and processor time in ms, and its peak in KiB."""
    inputs = write_workload(max(1, size // 10), size, words.seed, folder, words.full)
    found, rows = {}, {}
    for name, head in heads.items():
        runs = words.runs if name != "packaging" else max(1, words.runs // 3)
        command, out = head + inputs, os.path.join(folder, f"{name}.rows")
        times = [timed(command, out) for _ in range(runs)]
        with open(out, "rb") as file:
            rows[name] = file.read()
        found[name] = (min(it[0] for it in times), min(it[1] for it in times),
                       max(peak(command) for _ in range(3)))
    return found, rows


def print_rows(size, found, rows):
    """Prints a size's rows of the table. Returns the programs that print other rows than the first."""
    first = next(iter(rows))
    native, slow = found.get("native"), found.get("packaging")
    others = [name for name in rows if rows[name] != rows[first]]
    for name, (wall, cpu, memory) in found.items():
        count = rows[name].count(b"\n")
        print(f"| {size:,} | {max(1, size // 10):,} | {name} | {wall:.2f} | {cpu:.2f} | {memory:,} | "
              + (f"{wall / native[0]:.2f} | {memory / native[2]:.2f} | " if native
                 else "- | - | ")
              + (f"{slow[0] / wall:.1f} | " if slow else "- | ")
              + (f"{count:,}, NOT those of {first} |" if name in others else f"{count:,} |"),
              flush=True)
    return others


def write(words, found, which):
    """Puts the wall times and the peaks into the file of figures, by the kind of lines, the size and the program."""
    of = {"reqs": lambda: figures.version_of(words.program), "packaging": lambda: which, "native": lambda: words.native_is}
    kind, made = "full" if words.full else "plain", {}
    for size, programs in found.items():
        for name, (wall, _, memory) in programs.items():
            took = (wall / 1e3, "s") if name == "packaging" else (wall, "ms")
            made[f"run.{kind}.{size}.{name}.wall"] = (*took, of[name]())
            made[f"run.{kind}.{size}.{name}.peak"] = (memory / 1024, "MiB", of[name]())
    figures.put(made)


def main():
    words = read_words()
    heads, which = heads_of(words), None
    if "packaging" in heads:
        which = subprocess.run([*PACKAGING, "--which"], stdout=subprocess.PIPE, text=True, check=True).stdout.strip()
        print(f"{which}\n")
    print("| candidates | lines | program | wall ms | CPU ms | peak KiB "
          "| wall / native | peak / native | packaging / wall | rows |")
    print("|---|---|---|---|---|---|---|---|---|---|")
    found, others = {}, set()
    with tempfile.TemporaryDirectory(prefix="reqs-bench-") as room:
        for size in words.sizes:
            found[size], rows = measured(heads, words, size, os.path.join(words.folder or room, str(size)))
            others.update(print_rows(size, found[size], rows))
    if others:
        print("\nThe programs do not print the same rows.")
    if words.write and not others:
        write(words, found, which)
    return 1 if others else 0


if __name__ == "__main__":
    sys.exit(main())
