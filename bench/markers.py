#!/usr/bin/env python3
"""Times the reading and the printing of markers: long chains of comparisons, many short ones, many clauses.

    markers.py [PROGRAM] [--native PATH] [--runs N] [--lines N] [--write [--native-is TEXT]]

PROGRAM is crates/questions/out/questions where none is named (`./build questions` makes it). A native program is called as `PATH marker --json`, with a marker
as a JSON text a line on standard input. Chains are `os_name == 'x0' or os_name == 'x1' ..` and the same of extras, and
`extra == 'x0' and extra == 'x1' ..`; the many are drawn from the real markers among the questions
on markers. What is printed are those, clauses of ten comparisons, which differ in the first,
in the last or in all, 1,024 clauses of the same eleven extras, an `or` of some flags, and one of 10,000 versions;
reading these alone is timed beside. There the native program is called by `dnf` and `tree`. Processor seconds and peak
memory are those of the whole process, the least of several runs. The exit status is 1 where an answer is wrong, where
chains of 100,000 take more than 7 times as long as those of 20,000 (of extras 9 times: n of them make n nodes, each of
which is looked for in an ordered table), or where a chain of 300,000 texts or versions takes more than 3 seconds. With
`--write` what was measured goes to bench/figures.json, if it is 0; TEXT tells what the native program is.
"""

import argparse
import itertools
import json
import os
import random
import re
import subprocess
import sys
import tempfile

HERE = os.path.dirname(os.path.abspath(__file__))
sys.dont_write_bytecode = True
sys.path.insert(0, HERE)
import figures  # noqa: E402
from run import peak  # noqa: E402

CRATE = os.path.join(HERE, "..", "crates", "questions")
PROGRAM = os.path.join(CRATE, "out", "questions")
ASKED = "pep508_marker_vectors.jsonl"
SHORT, LEAST, MOST = 2000, 20000, 100000
LIMITS = {"os_name": 7, "extra": 9}
LONG, LONGEST_SECONDS = 300000, 3
CLAUSES, FLAGS = 1000, 11
# How many flags an `or` has, and up to how many the native program is asked too.
JOINED_FLAGS, MOST_NATIVE_FLAGS = (100, 300, 1000), 300
VERSIONS = 10000
KEYS = ["implementation_name", "os_name", "platform_machine", "platform.machine", "platform_python_implementation",
        "python_implementation", "platform_release", "platform_system", "platform_version", "sys_platform"]


def read_words():
    words = argparse.ArgumentParser(description=__doc__, formatter_class=argparse.RawDescriptionHelpFormatter)
    words.add_argument("program", nargs="?", default=os.path.normpath(PROGRAM))
    words.add_argument("--native", metavar="PATH")
    words.add_argument("--runs", metavar="N", type=int, default=5)
    words.add_argument("--lines", metavar="N", type=int, default=20000)
    return figures.read_words(words)


def chain(key, word, size):
    """A chain of comparisons, in no order."""
    value = "{1}.{0}" if key.endswith("version") else "x{0}"
    members = [f"{key} == '{value.format(number, number % 1000)}'" for number in range(size)]
    random.Random(7).shuffle(members)
    return f" {word} ".join(members)


def real_markers(number):
    """So many markers of real packages, drawn with repetition."""
    known = []
    with open(os.path.join(CRATE, "data", ASKED), encoding="utf-8") as file:
        for line in file:
            question = json.loads(line)
            if question[0] == "same" and "\n" not in question[1]:
                known.append(question[1])
    draw = random.Random(7)
    return [draw.choice(known) for _ in range(number)]


def clauses(number, at):
    """So many clauses of a comparison a key, which differ in the one at a place, or in all where there is none."""
    if at is None:
        return " or ".join(" and ".join(f"{key} == 'x{it}'" for key in KEYS) for it in range(number))
    shared = [f"{key} == 'x'" for key in KEYS]
    key, shared[at] = KEYS[at], "({})"
    chosen = [f"{key} == 'x{it}'" for it in range(number)]
    random.Random(7).shuffle(chosen)
    return " and ".join(shared).format(" or ".join(chosen))


def flag_clauses(flags):
    """The clauses of flags of which an odd number is set, each with all of them: no term or clause is needless."""
    signs = [it for it in itertools.product((True, False), repeat=flags) if sum(it) % 2]
    terms = [[f"extra {'==' if is_set else '!='} 'x{at}'" for at, is_set in enumerate(it)] for it in signs]
    random.Random(7).shuffle(terms)
    return " or ".join(map(" and ".join, terms))


def run(words, folder):
    """Runs a command once, with the file `input`: what it says, and its processor seconds."""
    with open(os.path.join(folder, "input"), "rb") as source, open(os.path.join(folder, "said"), "wb") as said:
        process = subprocess.Popen(words, cwd=folder, stdin=source, stdout=said)
        _, status, used = os.wait4(process.pid, 0)
    if status != 0:
        raise SystemExit(f"markers: {words[0]} ended with status {os.waitstatus_to_exitcode(status)}")
    with open(os.path.join(folder, "said"), encoding="utf-8") as said:
        return said.read().splitlines(), used.ru_utime + used.ru_stime


def measured(words, folder, runs, is_answer):
    """The least processor seconds of several runs, and the peak memory of one more, in KiB."""
    seconds = []
    for _ in range(runs):
        said, took = run(words, folder)
        if not is_answer(said):
            raise SystemExit(f"markers: {words[0]} answered something else, or refused a marker")
        seconds.append(took)
    return min(seconds), peak(["/bin/sh", "-c", 'cd "$1" && shift && exec "$@" <input', "sh", folder, *words])


def ours(program, folder, question, markers, runs):
    with open(os.path.join(folder, ASKED), "w", encoding="utf-8") as file:
        file.writelines(json.dumps([question, marker], ensure_ascii=False) + "\n" for marker in markers)
    for name in ("environments.txt", "input"):
        with open(os.path.join(folder, name), "w", encoding="utf-8"):
            pass
    is_answer = lambda said: len(said) == len(markers) and not any("refused" in line[-200:] for line in said)
    return measured([program], folder, runs, is_answer)


def native(program, folder, command, markers):
    with open(os.path.join(folder, "input"), "w", encoding="utf-8") as file:
        file.writelines(json.dumps(it) + "\n" for it in markers)
    return measured([program, command, "--json"], folder, 1, lambda said: len(said) == len(markers))


def workloads(lines):
    """A name, the question, the native command or none, and the markers."""
    for key, word in (("os_name", "or"), ("extra", "or"), ("extra", "and")):
        for size in (SHORT, LEAST, MOST):
            # (the native program takes the square of a chain's length, and prints what it has read)
            command = "marker" if (key, size) == ("os_name", SHORT) else None
            yield f"{key} {word} {size}", "marker", command, [chain(key, word, size)]
    for key in ("os_name", "python_full_version"):
        yield f"{key} or {LONG}", "marker", None, [chain(key, "or", LONG)]
    yield f"real markers {lines}", "marker", "marker", real_markers(lines)
    for which, at in (("first", 0), ("last", -1), ("all", None)):
        for question, command in (("marker", "tree"), ("text", "dnf")):
            yield f"{CLAUSES} clauses, {which} terms differ: {question}", question, command, [clauses(CLAUSES, at)]
    for question, command in (("marker", "tree"), ("text", "dnf")):
        yield f"clauses of {FLAGS} flags: {question}", question, command, [flag_clauses(FLAGS)]
    for flags in JOINED_FLAGS:
        command = "dnf" if flags <= MOST_NATIVE_FLAGS else None
        yield f"an or of {flags} flags: text", "text", command, [chain("extra", "or", flags)]
    for question in ("marker", "text"):
        yield f"an or of {VERSIONS} versions: {question}", question, None, [chain("python_full_version", "or", VERSIONS)]
    yield f"real markers {lines}: text", "text", "dnf", real_markers(lines)


def put(words, took, of_native):
    """Puts what was measured into the file of figures, by the workload and the program."""
    made = {}
    for program, found, of in (("ours", took, os.path.basename(words.program)), ("native", of_native, words.native_is)):
        for workload, (seconds, memory) in found.items():
            name = f"markers.{re.sub(r'[^0-9a-z]+', '_', workload)}.{program}"
            made[f"{name}.cpu"], made[f"{name}.peak"] = (seconds, "s", of), (memory / 1024, "MiB", of)
    figures.put(made)


def main():
    words = read_words()
    took, of_native = {}, {}
    with tempfile.TemporaryDirectory() as folder:
        print("| workload | CPU s | peak KiB |" + (" native CPU s | native peak KiB |" if words.native else ""))
        for name, question, command, markers in workloads(words.lines):
            took[name] = ours(os.path.abspath(words.program), folder, question, markers, words.runs)
            row = [name, f"{took[name][0]:.3f}", str(took[name][1])]
            if words.native and command:
                other = native(os.path.abspath(words.native), folder, command, markers)
                row += [f"{other[0]:.3f}", str(other[1])]
                of_native[name] = other
            print("| " + " | ".join(row) + " |")
    slow = [it for it in took if it.endswith(f" {MOST}") and is_slow(it, took)]
    for it in slow:
        print(f"markers: {it} takes more than {LIMITS[it.split()[0]]} times as long as {LEAST}", file=sys.stderr)
    long = [it for it in took if it.endswith(f" {LONG}") and took[it][0] > LONGEST_SECONDS]
    for it in long:
        print(f"markers: {it} takes more than {LONGEST_SECONDS} s", file=sys.stderr)
    if words.write and not slow and not long:
        put(words, took, of_native)
    return 1 if slow or long else 0


def is_slow(chain, took):
    """Whether a chain of MOST comparisons takes longer than it may beside that of LEAST."""
    few = took[chain.replace(str(MOST), str(LEAST))][0]
    return took[chain][0] > LIMITS[chain.split()[0]] * few


if __name__ == "__main__":
    sys.exit(main())
