#!/usr/bin/env python3
"""Measures where the time of the gate goes.

    gate.py [--log FILE] [COMMAND..]

Runs the command, ./test at the top of the repository where none is given, and looks several times a second at the
processes that it has started. What the command says is shown with the second at which it came, and goes to the file
too where one is named. At the end come three tables: the processor time by kind of work; by crate; and the seconds at
which each kind began and ended. Processor seconds hardly depend on what else the machine does; wall time does.
"""

import argparse
import os
import re
import subprocess
import sys
import threading
import time

TOP = os.path.dirname(os.path.dirname(os.path.abspath(__file__)))
TICKS = os.sysconf("SC_CLK_TCK")
PAUSE = 0.2
KINDS = ["proofs", "proofs of tests", "wrong edits one by one", "wrong edits together", "builds",
         "runs of tests and programs", "command line", "answers compared", "a first answer", "installing",
         "refused memory", "library for C", "Python package", "Debian package", "Rust crate", "faults", "the rest"]
# A script whose processes are all of one kind.
SCRIPTS = {"cli.sh": ("command line", ""), "alike.py": ("answers compared", ""), "try.sh": ("a first answer", ""),
           "c.sh": ("library for C", ""), "python.sh": ("Python package", ""), "deb.sh": ("Debian package", ""),
           "rust.sh": ("Rust crate", ""), "install.sh": ("installing", ""), "refused.sh": ("refused memory", ""),
           "faults.py": ("faults", "")}


class Unit:
    """A process of one kind of work, with all that it starts."""

    def __init__(self, kind, crate, now):
        self.kind, self.crate, self.first, self.last, self.seconds, self.memory = kind, crate, now, now, 0.0, 0


def processes():
    """The parent and the processor seconds of each process, those of its ended children included."""
    found = {}
    for name in os.listdir("/proc"):
        if name.isdigit():
            try:
                with open(f"/proc/{name}/stat", encoding="ascii", errors="replace") as file:
                    words = file.read().rpartition(")")[2].split()
            except OSError:
                continue
            found[int(name)] = int(words[1]), sum(map(int, words[11:15])) / TICKS, words[19]
    return found


def words_of(process):
    try:
        with open(f"/proc/{process}/cmdline", "rb") as file:
            return file.read().decode(errors="replace").split("\0")
    except OSError:
        return []


def folder_of(process):
    try:
        return os.readlink(f"/proc/{process}/cwd")
    except OSError:
        return ""


def peak_of(process):
    try:
        with open(f"/proc/{process}/status", encoding="ascii", errors="replace") as file:
            return int((re.search(r"VmHWM:\s+(\d+)", file.read()) or [0, 0])[1]) // 1024
    except OSError:
        return 0


def kind_of(process):
    """The kind of work and the crate of a process that does one, else None."""
    words = words_of(process)
    program = os.path.basename(words[0]) if words else ""
    if (program in ("bash", "sh") or program.startswith("python")) and len(words) > 1:
        return SCRIPTS.get(os.path.basename(words[1]))
    if program == "rattle-link":
        return "builds", os.path.basename(os.path.dirname(folder_of(process))) and os.path.basename(folder_of(process))
    if program == "rattle-test" or folder_of(process).startswith("/tmp/rt-run-"):
        return "runs of tests and programs", re.sub(r"_tests$", "", os.path.basename(words[-2] if words[-1:] == [""] else ""))
    if program != "rattle" or "--crate-name" not in words:
        return None
    crate = words[words.index("--crate-name") + 1]
    if any(it.startswith("--only") for it in words):
        return "wrong edits together", crate
    if os.path.basename(folder_of(process)).startswith("rt-edit-"):
        return "wrong edits one by one", crate
    if "--crate-checked" in words:
        return "builds", crate
    return "proofs of tests" if "--test" in words else "proofs", crate


class Watch:
    """Looks at what a process has started until it is told to end."""

    def __init__(self, top):
        self.top, self.began = top, time.monotonic()
        self.units, self.known, self.is_over = {}, {}, False

    def look(self):
        now, alive = time.monotonic() - self.began, processes()
        below = {}
        for process, (parent, _, _) in alive.items():
            below.setdefault(parent, []).append(process)
        sums = {}

        def walk(process, unit):
            _, seconds, started = alive[process]
            key = process, started
            if unit is None:
                # A process becomes another program by exec, so it is asked again until it is of a kind.
                if key not in self.known and (kind := kind_of(process)):
                    self.known[key] = Unit(*kind, now)
                unit = key if key in self.known else None
            if unit:
                sums[unit] = sums.get(unit, 0) + seconds
                self.known[unit].memory = max(self.known[unit].memory, peak_of(process))
            for it in below.get(process, []):
                walk(it, unit)

        if self.top in alive:
            walk(self.top, None)
        for key, seconds in sums.items():
            unit = self.known[key]
            unit.last, unit.seconds = now, max(unit.seconds, seconds)

    def run(self):
        while not self.is_over:
            self.look()
            time.sleep(PAUSE)


def lines_of(crate):
    count = 0
    for at, _, names in os.walk(os.path.join(TOP, "crates", crate, "src")):
        for name in names:
            if name.endswith(".rt"):
                with open(os.path.join(at, name), "rb") as file:
                    count += file.read().count(b"\n")
    return count


def edits_of(crate):
    """How many wrong edits rt ci tries one by one, and how many the gate then tries together."""
    folder, together = os.path.join(TOP, "crates", crate, "must-fail"), 0
    with open(os.path.join(TOP, "tests", "wrong", "gate.txt"), encoding="utf-8") as file:
        for line in file:
            name, _, names = line.partition("#")[0].partition(":")
            together += len(names.split()) * (name.strip() == crate)
    return sum(it.endswith(".edit") for it in os.listdir(folder)) if os.path.isdir(folder) else 0, together


def tell(units, wall, processor):
    print(f"\n{wall:.0f} s of wall time, {processor:.0f} s of processor time, {processor / wall:.1f} processors in the mean\n")
    rest = processor - sum(it.seconds for it in units)
    print("| Kind of work | processes | processor seconds | share | most memory of one, MB | from s | to s |")
    print("|---|---|---|---|---|---|---|")
    for kind in KINDS:
        own = [it for it in units if it.kind == kind]
        seconds = rest if kind == "the rest" else sum(it.seconds for it in own)
        span = (f"{min(it.first for it in own):.0f} | {max(it.last for it in own):.0f}" if own else "- | -")
        most = max((it.memory for it in own), default=0)
        print(f"| {kind} | {len(own) or '-'} | {seconds:.0f} | {100 * seconds / processor:.0f} % | {most or '-'} | {span} |")
    print("\n| Crate | lines | proof | a line | tests' proof | edits one by one | each | edits together | each | builds |")
    print("|---|---|---|---|---|---|---|---|---|---|")
    spent = {}
    for it in units:
        spent.setdefault(it.crate, {}).setdefault(it.kind, []).append(it.seconds)
    for crate in sorted(it for it in spent if it and os.path.isdir(os.path.join(TOP, "crates", it))):
        total = lambda kind, crate=crate: sum(spent[crate].get(kind, []))
        lines, (alone, together) = lines_of(crate), edits_of(crate)
        print(f"| {crate} | {lines} | {total('proofs'):.0f} | {total('proofs') / max(lines, 1):.2f} "
              f"| {total('proofs of tests'):.0f} | {alone} | {total('wrong edits one by one') / max(alone, 1):.0f} "
              f"| {together} | {total('wrong edits together') / max(together, 1):.0f} | {total('builds'):.0f} |")


def main():
    words = argparse.ArgumentParser(description=__doc__, formatter_class=argparse.RawDescriptionHelpFormatter)
    words.add_argument("--log", metavar="FILE")
    words.add_argument("command", nargs=argparse.REMAINDER)
    words = words.parse_args()
    command = [it for it in words.command if it != "--"] or ["./test"]
    log = open(words.log, "w", encoding="utf-8") if words.log else None
    began = time.monotonic()
    started = subprocess.Popen(command, cwd=TOP, stdin=subprocess.DEVNULL, stdout=subprocess.PIPE,
                               stderr=subprocess.STDOUT, text=True, errors="replace")
    watch = Watch(started.pid)
    watching = threading.Thread(target=watch.run, daemon=True)
    watching.start()
    for line in started.stdout:
        line = f"{time.monotonic() - began:7.1f}  {line}"
        print(line, end="", flush=True)
        if log:
            log.write(line)
            log.flush()
    watch.is_over = True
    watching.join()
    _, status, usage = os.wait4(started.pid, 0)
    tell([*watch.known.values()], time.monotonic() - began, usage.ru_utime + usage.ru_stime)
    return os.waitstatus_to_exitcode(status)


if __name__ == "__main__":
    sys.exit(main())
