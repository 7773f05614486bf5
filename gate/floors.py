"""Least counts, under which the questions, the stored runs and the commands with memory refused may not fall.

tests/least.txt has them; whoever adds some raises its count. What stands there twice counts once, so of wrong edits too; and a
control counts that says more than the right text in brackets. A crate that answers questions without one fails. So
does a question whose answer is `no question`, a kind of question that the head of the crate's `lib.rt` doesn't list,
and a kind there that the crate isn't asked. Counts under names of parts are of what these pass (gate.py).
"""

import json
import os
import re
import sys
import tempfile

import gate
from crates import TOP, Crates
from edits import edits_of, pairs_of

sys.path.insert(0, os.path.join(TOP, "tests"))
import documented
import ends
import numerals
import objects
import refused
import sizes

# What a text may have more than another and be of its shape all the same.
IDLE = re.compile(r"//.*|/\*.*?\*/|[\s(){};,]")


def read(*path):
    with open(os.path.join(TOP, *path), encoding="utf-8") as file:
        return file.read()


def kinds_told(crate):
    """The kinds of questions that the head of a crate lists: what stands before the colon of each item."""
    head = re.match(r"(?:#!.*\n)*((?://!.*\n)+)", read("crates", crate, "src", "lib.rt"))[1].replace("\n//!   ", " ")
    items = re.split(r"^//! - ", head, flags=re.M)[1:]
    return {kind for it in items for kind in re.findall(r'`\["([^"]+)"', it.partition("]`: ")[0])}


def faults_of(name, questions, told):
    """What is wrong with the questions of a crate."""
    asked = {json.loads(question)[0] for question, _ in questions}
    for question, answer in questions:
        if answer.rstrip() == question + b" no question":
            yield f"{name} doesn't know the question {question.decode()}"
    for kind in sorted(asked - told):
        yield f"crates/{name}/src/lib.rt doesn't list the questions `{kind}`"
    for kind in sorted(told - asked):
        yield f"crates/{name}/src/lib.rt lists questions `{kind}` that {name} isn't asked"


def shape(text):
    return IDLE.sub("", text)


def edits():
    """The wrong edits, each once, by what they put for what; and those whose control says more than the right text in brackets."""
    pairs = [(name, pairs_of(it.content.decode(errors="replace"))) for name, crate in Crates().items()
             for it in edits_of(crate)[0].values() if not it.why]
    wrong = {(name, *((it.file, *it.old.split(), "", *it.new.split()) for it in of)) for name, of in pairs}
    controls = [of for _, of in pairs if any(it.control is not None and shape(it.control) != shape(it.old) for it in of)]
    return wrong, controls


def counts(questions):
    """What is counted: a name as in least.txt, and how many there are."""
    for name in questions:
        yield f"questions {name}", len({*questions[name]})
    stored = json.loads(read("tests", "runs.json"))
    runs = {json.dumps([kind, {**it, "name": ""}], sort_keys=True) for kind in ("runs", "worked", "matrix", "lists") for it in stored[kind]}
    yield "runs", len(runs)
    wrong, controls = edits()
    yield "edits", len(wrong)
    yield "controls", len(controls)
    yield "objects", objects.count()
    yield "documented", documented.count()
    yield "sizes", sizes.count()
    yield "ends", ends.count()
    yield "numerals", numerals.count()
    with tempfile.TemporaryDirectory(prefix="floors-") as room:
        yield "commands", len(list(refused.commands(room)))


def least_counts():
    """What tests/least.txt says: counts by name."""
    least = {}
    for line in read("tests", "least.txt").splitlines():
        if line.strip() and not line.startswith("#"):
            name, _, number = line.rpartition(" ")
            least[name] = int(number)
    return least


def judged():
    """How many counts and crates pass, and what is wrong with the others."""
    questions = refused.questions()
    passed, faults, least = 0, [], least_counts()
    for name, count in counts(questions):
        wanted = least.pop(name, None)
        if wanted is None:
            faults.append(f"tests/least.txt has no line `{name} {count}`")
        elif count < wanted:
            faults.append(f"{name}: {count}, where tests/least.txt wants at least {wanted}")
        else:
            passed += 1
    for name in questions:
        found = list(faults_of(name, questions[name], kinds_told(name)))
        faults += found
        passed += not found
    parts = {part.name for part in gate.parts([])[2]}
    return passed, faults + [f"tests/least.txt: nothing is counted as `{name}`" for name in least if name not in parts]
