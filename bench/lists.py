#!/usr/bin/env python3
"""Measures `reqs same`, `reqs covers`, `reqs conflicts` and `reqs normal` beside the reading of a list.

    lists.py [PROGRAM] [--full] [--sizes N,..] [--runs N] [--seed N] [--folder FOLDER] [--write]

PROGRAM is crates/reqs_cli/out/reqs_cli where none is named. A workload of workload.py, without the lines that have a URL
or are refused, is asked for: `same` of the list and itself in another order, and of the list and one that differs in its
last package; `covers` of the latter and the list, and turned round, which lacks that package; `conflicts`; and `normal`.
Beside them stands `check` with no candidates, which reads the list and gives each package a row. Then come single packages
of 4,096 cases: `same` and `covers` beside itself in another order, and beside one whose last pair of cases differs.

Times are processor seconds of whole processes, the least of several runs; memory is the greatest of one. The exit status is
1 where an answer is another than it has to be, or where `same` or `covers` of 10,000 lines takes more than three times as
long as reading them twice, or a package of 4,096 cases more than a second. With `--write` what was measured goes to
bench/figures.json, if that is 0.
"""

import argparse
import json
import os
import random
import re
import resource
import subprocess
import sys
import tempfile

HERE = os.path.dirname(os.path.abspath(__file__))
sys.dont_write_bytecode = True
sys.path.insert(0, HERE)
import figures
from run import numbers, peak
from workload import ENVIRONMENT, make_workload

FLAGS = "abcdefghijkl"
# What `same` refuses in the lines of a workload: URLs, and a post-release behind `<` or `>`.
REFUSED = re.compile(r" @ |(?<![=!~<>])[<>](?!=)[^,;]*post")
EVERYWHERE = "all environments"
COMMANDS = {"reading": "reading, as `check`", "alike": "`same`, alike", "differing": "`same`, differing",
            "covered": "`covers`, yes", "uncovered": "`covers`, no", "conflicts": "`conflicts`", "normal": "`normal`"}


def compared_lines(lines, seed, full):
    """The lines of a workload that `same` doesn't refuse."""
    text, _, _ = make_workload(lines, 1, seed, full)
    return [it for it in text.splitlines() if it.strip() and not it.lstrip().startswith("#") and not REFUSED.search(it)]


def write(folder, name, text):
    with open(os.path.join(folder, name), "w", encoding="utf-8") as file:
        file.write(text)


def text_of(lines):
    return "".join(f"{it}\n" for it in lines)


class Measured:
    """What the commands took on a folder's lists."""

    def __init__(self, words, folder):
        self.words, self.folder, self.failed = words, folder, False

    def seconds(self, said, *command):
        """The least processor seconds of a command, which has to say this, and its peak in MiB."""
        words = [self.words.program, *(os.path.join(self.folder, it) if it.isupper() else it for it in command)]
        out = os.path.join(self.folder, "out")
        with open(out, "wb") as file:
            told = subprocess.run(words, stdout=file, stderr=subprocess.PIPE).stderr.decode()
        with open(out, encoding="utf-8") as file:
            found = file.read()
        if told or said is not None and found != said:
            print(f"  wrong: {' '.join(command)}: {(told or found)[:200]}")
            self.failed = True
        least = min(self.run(words) for _ in range(self.words.runs))
        # (the status of `same` and `covers` may be 1)
        return least, peak(["/bin/sh", "-c", '"$@" || true', "sh", *words]) / 1024

    @staticmethod
    def run(words):
        began = resource.getrusage(resource.RUSAGE_CHILDREN)
        subprocess.run(words, stdout=subprocess.DEVNULL)
        ended = resource.getrusage(resource.RUSAGE_CHILDREN)
        return ended.ru_utime + ended.ru_stime - began.ru_utime - began.ru_stime


def print_aims(reading, alike, differing, contradicting):
    """What is aimed at for 10,000 lines, and what was measured."""
    for what, value, most in (("`same` of equal lines takes the time of reading both lists", alike / reading / 2, 2),
                              ("`same` of lists that differ takes the time of equal ones", differing / alike, 1.5),
                              ("`conflicts` takes the time of reading the list", contradicting / reading, 2)):
        print(f"  {what} {value:.2f} times, and {most} times at most are aimed at{'' if value <= most else ': MISSED'}", flush=True)


def many_packages(words, folder, size):
    lines = compared_lines(size, words.seed, words.full)
    turned = random.Random(words.seed).sample(lines, len(lines))
    write(folder, "LIST", text_of(lines))
    write(folder, "TURNED", text_of(turned))
    write(folder, "OTHER", text_of([*turned, "zzz-last==1"]))
    write(folder, "E", json.dumps(ENVIRONMENT))
    write(folder, "C", "")
    it = Measured(words, folder)
    times = [it.seconds(None, "check", "LIST", "E", "C"), it.seconds("yes\n", "same", "LIST", "TURNED"),
             it.seconds(f"no\nzzz-last\n{EVERYWHERE}\n", "same", "LIST", "OTHER"), it.seconds("yes\n", "covers", "OTHER", "LIST"),
             it.seconds(f"no\nzzz-last\n{EVERYWHERE}\n{len(lines) + 1}\n", "covers", "LIST", "OTHER"),
             it.seconds(None, "conflicts", "LIST"), it.seconds(None, "normal", "LIST")]
    print(f"| {size:,} | " + " | ".join(f"{seconds:.3f} | {mib:.0f}" for seconds, mib in times) + " |", flush=True)
    words.found[size] = dict(zip(COMMANDS, times))
    if size == 10000:
        print_aims(*(words.found[size][name][0] for name in ("reading", "alike", "differing", "conflicts")))
    slow = [name for name in ("alike", "covered", "uncovered") if size == 10000 and words.found[size][name][0] > 6 * times[0][0]]
    for name in slow:
        print(f"  missed: {COMMANDS[name]} takes more than three times as long as reading both lists")
    return it.failed or bool(slow)


def one_package(words, folder):
    """A line for each letter that may stand in a text: 4,096 cases, of which the last is that of no line."""
    lines = [f"foo!={at}.0 ; '{letter}' in platform_version" for at, letter in enumerate(FLAGS)]
    write(folder, "LIST", text_of(lines))
    write(folder, "TURNED", text_of(reversed(lines)))
    write(folder, "OTHER", text_of([*lines, "foo!=99.0 ; " + " and ".join(f"'{it}' not in platform_version" for it in FLAGS)]))
    it = Measured(words, folder)
    where = " and ".join(f"'{letter}' not in platform_version" for letter in FLAGS)
    found = {"alike": it.seconds("yes\n", "same", "LIST", "TURNED"),
             "differing": it.seconds(f"no\nfoo\n{where}\n", "same", "LIST", "OTHER"),
             "covered": it.seconds("yes\n", "covers", "LIST", "TURNED"),
             "uncovered": it.seconds(f"no\nfoo\n{where}\n{len(FLAGS) + 1}\n", "covers", "LIST", "OTHER")}
    words.found["cases"] = found
    print("4,096 cases: " + "; ".join(f"{COMMANDS[name]} {seconds:.3f} s, {mib:.0f} MiB" for name, (seconds, mib) in found.items()))
    slow = max(seconds for seconds, _ in found.values()) > 1
    if slow:
        print("  missed: 4,096 cases take more than a second")
    return it.failed or slow


def put(words):
    """Puts what was measured into the file of figures, by the kind of lines, the size and the command."""
    of, made = figures.version_of(words.program), {}
    for size, commands in words.found.items():
        for command, (seconds, mib) in commands.items():
            name = f"lists.{'full' if words.full else 'plain'}.{size}.{command}"
            made[f"{name}.cpu"], made[f"{name}.peak"] = (seconds, "s", of), (mib, "MiB", of)
    figures.put(made)


def read_words():
    words = argparse.ArgumentParser(description=__doc__, formatter_class=argparse.RawDescriptionHelpFormatter)
    place = os.path.join(HERE, "..", "crates", "reqs_cli", "out", "reqs_cli")
    words.add_argument("program", nargs="?", default=os.path.normpath(place))
    words.add_argument("--full", action="store_true")
    words.add_argument("--sizes", metavar="N,..", type=numbers, default=[1000, 10000, 100000])
    words.add_argument("--runs", metavar="N", type=int, default=5)
    words.add_argument("--seed", metavar="N", type=int, default=7)
    words.add_argument("--folder", metavar="FOLDER")
    given = figures.read_words(words)
    given.program, given.found = os.path.abspath(given.program), {}
    if not os.access(given.program, os.X_OK):
        sys.exit(f"lists.py: no program at {given.program}; ./reqs --help at the top builds it")
    return given


def main():
    given, failed = read_words(), False
    print("| lines | " + " | ".join(f"{it} s | MiB" for it in COMMANDS.values()) + " |")
    print("|" + "---|" * (1 + 2 * len(COMMANDS)))
    with tempfile.TemporaryDirectory(prefix="lists-bench-") as room:
        for size in given.sizes:
            folder = os.path.join(given.folder or room, str(size))
            os.makedirs(folder, exist_ok=True)
            failed |= many_packages(given, folder, size)
        folder = os.path.join(given.folder or room, "cases")
        os.makedirs(folder, exist_ok=True)
        failed |= one_package(given, folder)
    if given.write and not failed:
        put(given)
    sys.exit(1 if failed else 0)


if __name__ == "__main__":
    main()
