#!/usr/bin/env python3
"""Asks the stored runs of runs.json for JSON objects, and compares each with the text of the same run.

    objects.py PROGRAM

Each run is asked by `--format json`, where runs.py asks for a text: its status is the same,
what it writes is one line that is one compact JSON object with its keys in order, and the text that this object tells is that of
the run. An answer is on standard output and a fault on standard error, and nothing is on the other. By `--format text` it is
asked too, and then it writes the text. A line is printed for each that differs; the last line is
`objects: N passed, M failed`. tests/least.txt says how many there are at least.
"""

import json
import os
import re
import subprocess
import sys

import runs

EVERYWHERE = "all environments"

# The kinds of faults by what is said of them, and where a place of bytes stands in it.
KINDS = (
    ("read", r"read fault"),
    ("too-long", r"longer than \d+ bytes"),
    ("not-text", r"not UTF-8 at byte (?P<start>\d+)"),
    ("json", r"not JSON"),
    ("float", r"a number is a float"),
    ("shape", r"not an object|not a list"),
    ("member", r"environment \d+: member \w+ is missing or no text"),
    ("version", r"environment \d+: member \w+ is no version"),
    ("too-many-cases", r"more than \d+ cases (for [a-z0-9-]+|in all)"),
)
LINE_KINDS = (
    ("number-at-end", r"a version number can't be raised"),
    ("refused", r"URL|===|post-release after a bound|single quote|deprecated key|version bound"),
    ("candidate", r"shape|name|version"),
    ("too-many-nodes", r"more than \d+ nodes"),
    ("too-many-clauses", r"more than \d+ clauses"),
)
WITHOUT_PATH = (
    ("write", r"write fault"),
    ("memory", r"out of memory"),
    ("extra", r"extra .* is no name"),
    ("too-many-nodes", r"more than \d+ nodes"),
    ("too-many-clauses", r"more than \d+ clauses for [a-z0-9-]+"),
    ("command-line", r"standard input \(-\) can be one input alone"),
)


def kind_in(kinds, message):
    """The kind of a message, and the match."""
    for kind, form in kinds:
        match = re.fullmatch(form, message, re.S)
        if match:
            return kind, match
    return None, None


def object_of_fault(text):
    """The object of a fault, by the text that `reqs` prints of it."""
    told = {"kind": None, "length": None, "line": None, "message": None, "path": None, "start": None}
    text = text.removeprefix("reqs: ").removesuffix("\n")
    place = re.match(r"(?P<path>[^:\n]*): line (?P<line>\d+), byte (?P<start>\d+), length (?P<length>\d+)\n", text)
    if place:
        numbers = {name: int(place[name]) for name in ("line", "start", "length")}
        # (no run has a file of that name)
        kind, path = ("assumption", None) if place["path"] == "assumption" else ("requirement", place["path"])
        return {**told, **numbers, "kind": kind, "path": path, "message": text[place.end():]}
    place = re.match(r"(?P<path>[^:\n]*): line (?P<line>\d+): ", text)
    if place:
        message = text[place.end():]
        kind, _ = kind_in(LINE_KINDS, message)
        return {**told, "kind": kind, "path": place["path"], "line": int(place["line"]), "message": message}
    kind, _ = kind_in(WITHOUT_PATH, text)
    if kind:
        return {**told, "kind": kind, "message": text}
    path, _, message = text.partition(": ")
    kind, match = kind_in(KINDS, message)
    start = match.groupdict().get("start") if match else None
    return {**told, "kind": kind, "path": path, "message": message, "start": int(start) if start else None}


def row_text(row):
    extras = f"[{','.join(row['extras'])}]" if row["extras"] else ""
    outcome = row["version"] if row["outcome"] == "version" else row["outcome"]
    return f"{row['name']}{extras} {outcome}\n"


def conflict_text(conflict):
    pre = " pre" if conflict["prerelease"] else ""
    return f"{conflict['package']} {','.join(map(str, conflict['lines']))}{pre}\n"


def environment_text(environment):
    return f"env {environment['number']}\n" + "".join(map(row_text, environment["packages"]))


def text_of(command, answer):
    """The text that an object tells: what the command prints without `--format json`."""
    if command == "check":
        return "".join(map(row_text, answer["packages"]))
    if command == "matrix":
        return "".join(map(environment_text, answer["environments"]))
    if command == "conflicts":
        return "".join(map(conflict_text, answer["conflicts"]))
    if command == "normal":
        return "".join(f"{it}\n" for it in answer["requirements"])
    if answer in ({"same": True}, {"covers": True}):
        return "yes\n"
    if command == "covers":
        assert sorted(answer) == ["covers", "lines", "marker", "package"] and answer["covers"] is False, answer
        return difference_text(answer) + ",".join(map(str, answer["lines"])) + "\n"
    assert sorted(answer) == ["marker", "package", "same"] and answer["same"] is False, answer
    return difference_text(answer)


def difference_text(answer):
    """The package of an answer, and where it is at fault."""
    return f"no\n{answer['package']}\n{EVERYWHERE if answer['marker'] is None else answer['marker']}\n"


def line_of(answer):
    """An object as one line, with its keys in order and no blank."""
    return json.dumps(answer, ensure_ascii=False, separators=(",", ":"), sort_keys=True) + "\n"


def with_format(words, name, turn):
    """The words with the option, behind the command or behind all of them."""
    option = [f"--format={name}"] if turn % 4 == 3 else ["--format", name]
    return [words[0], *option, *words[1:]] if turn % 2 else [*words, *option]


def faults_of(command, wanted, got):
    """What is wrong with how a run ended that was asked for an object."""
    status, text, said = (it if isinstance(it, int) else it.decode("utf-8") for it in wanted)
    ended, out, err = (it if isinstance(it, int) else it.decode("utf-8") for it in got)
    if ended != status:
        return [f"status is {ended}, not {status}"]
    is_refused = status in (2, 3)
    line, other = (err, out) if is_refused else (out, err)
    if other:
        return [f"the other output is {other!r}"]
    try:
        answer = json.loads(line)
        if line != line_of(answer):
            return [f"the object is not as it is written: {line!r}"]
        if is_refused:
            told, wished = answer, {"error": object_of_fault(said)}
        else:
            told, wished = text_of(command, answer), text
    except (ValueError, KeyError, TypeError, AssertionError) as error:
        return [f"{line!r}: {error!r}"]
    return [] if told == wished else [f"it tells {told!r}, not {wished!r}"]


def count():
    """How many runs there are."""
    return sum(1 for _ in runs.runs_of(runs.stored_runs()))


def tried(program):
    """What each run is, and what is wrong with it."""
    for turn, (name, words, texts, wanted) in enumerate(runs.runs_of(runs.stored_runs())):
        try:
            found = faults_of(words[0], wanted, runs.ended(program, with_format(words, "json", turn), texts))
        except (OSError, subprocess.TimeoutExpired) as error:
            found = [str(error)]
        found += runs.differences(program, with_format(words, "text", turn), texts, wanted)
        yield f"object of {name}", found


if __name__ == "__main__":
    sys.exit(runs.command(__doc__, "objects", tried))
