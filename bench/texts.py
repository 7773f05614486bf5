#!/usr/bin/env python3
"""Prints markers made at random, reads the prints back, and compares them with those of a native program.

    texts.py [PROGRAM] [--markers N] [--seed N] [--native PATH] [--environments N]

PROGRAM is crates/questions/out/questions where none is named (`./build questions` makes it). Each marker that is read is printed, and its print is read again: both have
to be one tree, but where a print can't say what the tree asks: a marker that never holds, a deprecated key, a single
quote within a text, a version of more than release numbers.

A native program is called as `PATH marker --json`, with a marker as a JSON text a line, for which it prints a JSON object
with `ok`, the marker's text, or with `error` or `panic`; and as `PATH evaluate --json` with the list of a marker, an
environment and extras, for an object with `value`. Where the texts differ, the program is asked whether both are one
tree, and the native program evaluates both in environments made at random. The exit status is 1 where a print doesn't read back
as its tree, or where two texts that differ don't mean the same.
"""

import argparse
import collections
import json
import os
import random
import re
import subprocess
import sys
import tempfile

HERE = os.path.dirname(os.path.abspath(__file__))
PROGRAM = os.path.join(HERE, "..", "crates", "questions", "out", "questions")

VERSION_KEYS = ["implementation_version", "python_full_version", "python_version"]
TEXT_KEYS = ["implementation_name", "os_name", "platform_machine", "platform_python_implementation", "platform_release",
             "platform_system", "platform_version", "sys_platform"]
OLD_KEYS = ["os.name", "platform.machine", "platform.python_implementation", "python_implementation", "platform.version",
            "sys.platform"]
RELEASES = ["0", "1", "1.0", "2.7", "3", "3.0", "3.1", "3.6", "3.7", "3.7.0", "3.7.1", "3.8", "3.8.0.0", "3.8.2", "3.9",
            "3.10", "3.10.0", "3.11", "3.11.4", "4", "4.0.0"]
ODD_VERSIONS = ["3.9a1", "3.8.post1", "1!3.8", "3.8+x", "3.9.dev2", "dog", "", "3.x"]
TEXTS = ["a", "b", "nt", "posix", "win32", "linux", "Linux", "1.0", "", "a b", "é", "it's", "zz"]
EXTRAS = ["x", "y", "Dev_Extra", "test", "a-", ""]
ONE = "refused by one program alone"
ORDER = ["==", "!=", "<", "<=", ">", ">="]


def versions(draw):
    return draw.choice(ODD_VERSIONS) if draw.random() < 0.04 else draw.choice(RELEASES)


def quoted(draw, text):
    quote = '"' if "'" in text or draw.random() < 0.3 else "'"
    return quote + text + quote


def comparison(draw, keys):
    """One comparison of one of these keys."""
    key = draw.choice(keys)
    kind = draw.random()
    if key == "extra":
        operator, value = draw.choice(["==", "==", "==", "!=", "!=", "<"]), draw.choice(EXTRAS)
    elif key in VERSION_KEYS:
        operator, value = draw.choice(ORDER), versions(draw)
        if kind < 0.12:
            operator, value = draw.choice(["==", "!="]), versions(draw) + ".*"
        elif kind < 0.24:
            operator, value = draw.choice(["in", "not in"]), " ".join(versions(draw) for _ in range(draw.randint(0, 4)))
        elif kind < 0.32:
            operator = draw.choice(["~=", "~=", "==="])
    else:
        operator, value = draw.choice(ORDER), draw.choice(TEXTS)
        if kind < 0.25:
            operator = draw.choice(["in", "not in"])
        elif kind < 0.27:
            operator = "~="
    said = [key, operator, quoted(draw, value)]
    return " ".join(reversed(said) if draw.random() < 0.2 else said)


def formula(draw, keys, size):
    if size == 1:
        return comparison(draw, keys)
    left = draw.randint(1, size - 1)
    parts = [formula(draw, keys, left), formula(draw, keys, size - left)]
    said = draw.choice([" and ", " or "]).join(parts)
    return f"({said})" if draw.random() < 0.6 else said


def marker(draw):
    """A marker on one to four keys, so that what it asks of one meets."""
    pool = VERSION_KEYS * 2 + TEXT_KEYS + OLD_KEYS[:2] + ["os_name", "extra", "extra", "extra", "python_full_version"]
    keys = draw.sample(pool, draw.randint(1, 4))
    return formula(draw, keys, draw.choice([1, 2, 2, 3, 3, 4, 5, 6, 8]))


def environment(draw):
    full = draw.choice([it for it in RELEASES if it.count(".") > 0] + ["3.8.1", "3.9.9", "3.7.5", "2.7.18", "5.0"])
    texts = {key: draw.choice([it for it in TEXTS if it]) for key in TEXT_KEYS}
    version = {"python_full_version": full, "python_version": ".".join(full.split(".")[:2])}
    return {**texts, **version, "implementation_version": draw.choice(RELEASES)}


def run(words, folder, given=""):
    done = subprocess.run(words, cwd=folder, input=given.encode(), capture_output=True)
    if done.returncode != 0:
        raise SystemExit(f"texts: {words[0]} ended with status {done.returncode}: {done.stderr.decode()[:300]}")
    return done.stdout.decode()


class Ours:
    """The program, which answers questions that stand in a file."""

    def __init__(self, program, folder):
        self.program, self.folder = os.path.abspath(program), folder
        with open(os.path.join(folder, "environments.txt"), "w", encoding="utf-8"):
            pass

    def answers(self, questions):
        lines = [json.dumps(it, ensure_ascii=False) for it in questions]
        with open(os.path.join(self.folder, "pep508_marker_vectors.jsonl"), "w", encoding="utf-8") as file:
            file.writelines(line + "\n" for line in lines)
        said = run([self.program], self.folder).split("\n")[:-1]
        if len(said) != len(lines) or not all(map(str.startswith, said, lines)):
            raise SystemExit("texts: the program answered something else")
        return [answer[len(line) + 1:] for line, answer in zip(lines, said)]


def native(path, folder, command, questions):
    given = "".join(json.dumps(it) + "\n" for it in questions)
    said = [json.loads(line) for line in run([os.path.abspath(path), command, "--json"], folder, given).splitlines()]
    if len(said) != len(questions):
        raise SystemExit("texts: the native program answered something else")
    return said


def can_say(given, text):
    """Whether the print of a marker says all that its tree asks."""
    is_old = re.search(r"(?<![\w.])(" + "|".join(map(re.escape, OLD_KEYS)) + r")(?!\w)", given)
    is_odd = re.search(r"(implementation|full)_version [<>=!]+ '(?![0-9.]+(\.\*)?')", text) or "+" in given
    return text != "python_version < '0'" and not is_old and not is_odd and "'it's'" not in text


def read_back(ours, markers, texts, tally):
    """Reads the prints again; those that aren't their marker's tree are returned."""
    asked = [(given, text) for given, text in zip(markers, texts) if text != "no text" and not text.startswith("refused at")]
    tally["printed"] = len(asked)
    asked = [it for it in asked if can_say(*it)]
    tally["to be read back"] = len(asked)
    found = ours.answers([["same", *it] for it in asked])
    again = ours.answers([["text", text] for _, text in asked])
    faults = [it for it, answer, second in zip(asked, found, again) if answer != "true" or second != it[1]]
    tally["read back"] = len(asked) - len(faults)
    return faults


def reads_otherwise(given):
    """Whether the native program may read a marker as another tree: zeros at the end of a version, an empty extra."""
    zero = r"\.0(?=['\" ])"
    return bool(re.search(r"\bpython_version\b", given) and re.search(r"\.[0-9]+" + zero, given)
                or "~=" in given and re.search(zero, given)
                or re.search(r"\bextra\b", given) and re.search("''|\"\"", given))


def kind_of(given, text, answer):
    """What a native answer is beside a text."""
    if "panic" in answer or "panic" in (answer.get("ok") or ""):
        return "the native program panics"
    if text.startswith("refused at") or "error" in answer:
        return "refused" if text.startswith("refused at") and "error" in answer else ONE
    if text == {"TRUE": "no text", "FALSE": "python_version < '0'"}.get(answer["ok"], answer["ok"]):
        return "alike"
    if reads_otherwise(given):
        return "a marker that the native program may read otherwise"
    return "another text" if "'it's'" not in text else "another text, with a quote that can't be read"


def compare(words, ours, folder, markers, texts, tally):
    """Compares with the native texts; those that mean something else are returned."""
    answers = native(words.native, folder, "marker", markers)
    kinds = [kind_of(*it) for it in zip(markers, texts, answers)]
    tally.update(kinds)
    faults = [it for it in zip(markers, texts, kinds) if it[2] == ONE]
    faults += other_extras(ours, markers, answers, kinds)
    pairs = [(given, is_always(text), is_always(answer["ok"])) for given, text, answer, kind
             in zip(markers, texts, answers, kinds) if kind == "another text"]
    one = ours.answers([["same", left, right] for _, left, right in pairs])
    draw = random.Random(words.seed)
    rooms = [(environment(draw), draw.sample(EXTRAS[:4], draw.randint(0, 3))) for _ in range(words.environments)]
    asked = [[text, *room] for _, *both in pairs for text in both for room in rooms]
    values = [it["value"] for it in native(words.native, folder, "evaluate", asked)]
    for at, (pair, same) in enumerate(zip(pairs, one)):
        first, middle, last = (2 * at * len(rooms), (2 * at + 1) * len(rooms), (2 * at + 2) * len(rooms))
        if same == "true" and values[first:middle] == values[middle:last]:
            tally["another text of the same tree"] += 1
        else:
            faults.append(pair)
    return faults


def other_extras(ours, markers, answers, kinds):
    """Markers of one text whose extra at the top differs."""
    same = [(given, answer) for given, answer, kind in zip(markers, answers, kinds) if kind == "alike"]
    found = ours.answers([["top extra", given] for given, _ in same])
    return [(given, extra, answer["top_level_extra"]) for (given, answer), extra in zip(same, found)
            if extra != (answer["top_level_extra"] or "none")]


def is_always(text):
    """A text that reads as a marker, for constants too."""
    constants = {"no text": "'a' == 'b'", "TRUE": "'a' == 'b'", "FALSE": "os_name == 'a' and os_name == 'b'"}
    return {**constants, "python_version < '0'": constants["FALSE"]}.get(text, text)


def read_words():
    words = argparse.ArgumentParser(description=__doc__, formatter_class=argparse.RawDescriptionHelpFormatter)
    words.add_argument("program", nargs="?", default=os.path.normpath(PROGRAM))
    words.add_argument("--markers", metavar="N", type=int, default=20000)
    words.add_argument("--seed", metavar="N", type=int, default=7)
    words.add_argument("--native", metavar="PATH")
    words.add_argument("--environments", metavar="N", type=int, default=50)
    words.add_argument("--shown", metavar="N", type=int, default=20, help="how many faults are shown of each kind")
    return words.parse_args()


def main():
    words = read_words()
    draw = random.Random(words.seed)
    markers = [marker(draw) for _ in range(words.markers)]
    tally = collections.Counter()
    with tempfile.TemporaryDirectory() as folder:
        ours = Ours(words.program, folder)
        texts = ours.answers([["text", it] for it in markers])
        faults = {"not read back": read_back(ours, markers, texts, tally)}
        if words.native:
            faults["means something else"] = compare(words, ours, folder, markers, texts, tally)
    for name, number in tally.items():
        print(f"{name}: {number}")
    for name, found in faults.items():
        print(f"{name}: {len(found)}")
        for it in found[:words.shown]:
            print("    " + "\n        ".join(map(repr, it)))
    return 1 if any(faults.values()) else 0


if __name__ == "__main__":
    sys.exit(main())
