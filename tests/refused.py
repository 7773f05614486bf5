#!/usr/bin/env python3
"""Runs programs with memory refused.

    refused.py LIBRARY

LIBRARY is tests/refuse.c as a shared library, which refuses a program the requests for memory that it is told. Each
command is run with its first request refused, then with its second, and so on until a run asks no more often; and once
more with all requests refused from each on. (One process of a command goes on from request to request, and is forked at
each for the runs in which that is refused.) A run that met a refusal has to say so, by its status and the text of want
of memory, and write nothing else; or it gives its whole answer after all, since a request may be made by the C library
for itself. Where an input is refused and its text can't be made, the text of want of memory comes with the status of
the refusal. A run without a refusal gives the answer with ample memory, before the others and beside them.

The commands are `reqs check` on each example and on lists that are refused, `reqs matrix`, `reqs same`, `reqs covers`,
`reqs conflicts` and `reqs normal`, each of these asked for an object too, those of rows.py, the program's help, and the questions of
crates/questions, of those on markers every eighth, one a run; each stands with the answer that it has with ample memory.
To questions of KEPT the program goes on: it makes a call that was refused memory again, and answers by it and by the
trees or the table that it made before. There some run has to give the whole answer after a refusal.

The requests of `matrix` are counted too: one environment more, in which the cases are the same, asks no more often with
many packages than with few, since each row is made once and kept.

tests/least.txt says how many commands and questions there are at least. The last line is `refused: N passed, M failed`, a
command or a kind of question each.
"""

import json
import multiprocessing
import os
import shutil
import struct
import subprocess
import sys
import tempfile

import objects
import runs
from rows import FORMATS, ROWS

TOP = os.path.dirname(os.path.dirname(os.path.abspath(__file__)))
REQS = os.path.join(TOP, "crates", "reqs_cli", "out", "reqs_cli")
QUESTIONS = os.path.join(TOP, "crates", "questions")
PROGRAM = os.path.join(QUESTIONS, "out", "questions")
# Of the questions of each crate every so many-th is asked: those on markers are many, and much alike.
VECTORS = {"pep440_vectors": 1, "pep508_vectors": 1, "pep508_marker_vectors": 8}
# Questions that are always asked, of a call that is made again where it was refused memory.
KEPT = ("keeps", "keeps table")
# What is said where there is no memory and an object is asked for.
NO_MEMORY = objects.line_of({"error": objects.object_of_fault("reqs: out of memory\n")}).encode()
# Every request after the first that is refused.
ALL = 2 ** 64 - 1
# How tests/refuse.c tells how a run ended: its first and last refused request, its status, and how much it wrote.
ENDED = struct.Struct("=QQqQQ")
# Packages and environments of which the requests are counted.
FEW, MANY = 10, 40
# A command that asks more often than this doesn't end.
MOST_REQUESTS = 100_000
INPUT_REFUSED = 2


# How each program ends where memory is refused.
WANT = {REQS: (3, b"reqs: out of memory\n"), PROGRAM: (1, b"Error: Kind(OutOfMemory)\n")}


def fault_line(text):
    """The object of a fault, by its text."""
    return objects.line_of({"error": objects.object_of_fault(text.decode())}).encode()


# What is said of some of the commands below.
UNREAD = b"""reqs: unread: line 3, byte 3, length 1
Package name must end with an alphanumeric character, not '-'
foo- @ x
   ^
"""
NO_TEXT = "reqs: argument \ufffd\ufffd is not UTF-8\n".encode()
WRONG_WORD = b"""error: unrecognized subcommand 'judge'

Usage: reqs <COMMAND>

For more information, try '--help'.
"""


class Tally:
    """What came of the runs of one command."""

    def __init__(self, kind):
        self.kind, self.requests, self.runs, self.harmless, self.faults = kind, 0, 0, 0, []

    def add(self, other):
        self.requests += other.requests
        self.runs += other.runs
        self.harmless += other.harmless
        self.faults += other.faults


def ran(library, words, folder, first, last):
    """Runs a command with these requests refused: how it ended, and whether a request was refused."""
    reads, writes = os.pipe()
    try:
        refuse = {"REFUSE_TOLD": str(writes), "REFUSE_FIRST": str(first), "REFUSE_LAST": str(last)}
        environment = {"LC_ALL": "C.UTF-8", "LD_PRELOAD": library, **refuse}
        done = subprocess.run(words, cwd=folder, env=environment, stdin=subprocess.DEVNULL, capture_output=True,
                              pass_fds=[writes], timeout=runs.HANGS)
        os.close(writes)
        writes = None
        return (done.returncode, done.stdout, done.stderr), bool(os.read(reads, 1))
    finally:
        os.close(reads)
        if writes is not None:
            os.close(writes)


def ran_at_each(library, words, folder):
    """Runs a command with each of its requests refused, alone and with all after it, and with none: the first and the last
    request that was refused, and how the run ended."""
    with tempfile.TemporaryFile() as told:
        refuse = {"REFUSE_EACH": str(told.fileno()), "REFUSE_LAST": str(MOST_REQUESTS)}
        environment = {"LC_ALL": "C.UTF-8", "LD_PRELOAD": library, **refuse}
        done = subprocess.run(words, cwd=folder, env=environment, stdin=subprocess.DEVNULL, capture_output=True,
                              pass_fds=[told.fileno()], timeout=10 * runs.HANGS)
        told.seek(0)
        said, at = told.read(), 0
    if (done.returncode, done.stdout, done.stderr) != (0, b"", b""):
        raise RuntimeError(f"{words}: the runs at each request ended with {done}")
    while at < len(said):
        first, last, status, output, errors = ENDED.unpack_from(said, at)
        at += ENDED.size
        yield first, last, (status, said[at : at + output], said[at + output : at + output + errors])
        at += output + errors


def try_command(library, kind, words, folder, wanted):
    """Tries a command with each of its requests refused. What is wanted is what it does with ample memory."""
    tally = Tally(kind)
    label = ascii(" ".join([kind, *words[1:]]))[1:-1]
    ample, _ = ran(library, words, folder, 0, 0)
    if ample != wanted:
        tally.faults.append(f"{label}: with ample memory: {ample}, not {wanted}")
        return tally
    status, text = WANT[words[0]]
    texts = [text, NO_MEMORY] if "json" in words else [text]
    lacking, refused = [(status, b"", it) for it in texts], 0
    if wanted[0] == INPUT_REFUSED:
        lacking += [(INPUT_REFUSED, b"", it) for it in texts]
    for first, last, ended in ran_at_each(library, words, folder):
        if first == 0:
            if ended != wanted:
                tally.faults.append(f"{label}: with no request refused: {ended}")
            continue
        tally.requests = first
        tally.runs += 1
        refused += ended in lacking
        tally.harmless += ended == wanted
        if ended not in (*lacking, wanted):
            which = f"request {first} refused" + (", and all after it" if last == ALL else "")
            tally.faults.append(f"{label}: {which}: {ended}")
    if tally.requests == MOST_REQUESTS:
        tally.faults.append(f"{label}: it still asks for memory after {MOST_REQUESTS} requests")
    if tally.runs != 2 * tally.requests:
        tally.faults.append(f"{label}: {tally.runs} runs for {tally.requests} requests")
    if refused == 0:
        tally.faults.append(f"{label}: no run told want of memory")
    if kind in map(kind_of, KEPT) and tally.harmless == 0:
        tally.faults.append(f"{label}: no run went on after a refusal")
    return tally


def requests_of(library, words, folder):
    """The number of requests for memory of a command: the first that no refusal meets is one more."""
    least, most = 1, MOST_REQUESTS
    while least < most:
        middle = (least + most) // 2
        if ran(library, words, folder, middle, ALL)[1]:
            least = middle + 1
        else:
            most = middle
    return least - 1


def rows_are_kept(library, room):
    """Counts what further environments ask for, with few packages and with many, whose rows are those of the first."""
    tally = Tally("matrix, a row for all environments:")
    environment = read(os.path.join(TOP, "examples", "spelling", "environment.json")).decode()
    asked = {}
    for packages in (FEW, MANY):
        names = [f"p{it}" for it in range(packages)]
        for environments in (FEW, MANY):
            texts = {"lines": "".join(f"{it}>=1 ; os_name != ''\n" for it in names),
                     "list": f"[{','.join([environment] * environments)}]", "found": "".join(f"{it} 1.0\n" for it in names)}
            for name, text in texts.items():
                with open(os.path.join(room, name), "w", encoding="ascii") as file:
                    file.write(text)
            asked[packages, environments] = requests_of(library, [REQS, "matrix", *texts], room)
    few, many = (asked[it, MANY] - asked[it, FEW] for it in (FEW, MANY))
    tally.requests, tally.runs = sum(asked.values()), len(asked)
    if many > few:
        tally.faults.append(f"{MANY - FEW} environments more ask {few} times with {FEW} packages, and {many} times with {MANY}")
    return tally


def read(path):
    with open(path, "rb") as file:
        return file.read()


def commands(room):
    """The commands of `reqs`: a name, its words, the folder, and the status and the outputs that are wanted."""
    examples = os.path.join(TOP, "examples")
    files = ["requirements.txt", "environment.json", "candidates.txt"]
    for name in sorted(os.listdir(examples)):
        folder = os.path.join(examples, name)
        if all(os.path.isfile(os.path.join(folder, it)) for it in [*files, "expected.txt"]):
            expected = read(os.path.join(folder, "expected.txt"))
            yield f"examples/{name}:", ["check", *files], folder, (0, expected, b"")
    example = os.path.join(examples, "spelling")
    for it in files:
        with open(os.path.join(room, it), "wb") as file:
            file.write(read(os.path.join(example, it)))
    for name, text in (("unread", b"foo>=1.0\n\nfoo- @ x\n"), ("name", b"foo 1.0\nfoo- 1.0\n"), ("version", b"foo 1.0\nfoo 1.0+\n")):
        with open(os.path.join(room, name), "wb") as file:
            file.write(text)
    environment = read(os.path.join(example, "environment.json"))
    with open(os.path.join(room, "environments"), "wb") as file:
        file.write(b"[" + environment + b"," + environment + b"]")
    environments = [files[0], "environments", files[2]]
    yield "matrix:", ["matrix", *environments], room, (0, b"env 1\nfoo-bar 1.19\nenv 2\nfoo-bar 1.19\n", b"")
    cases = b"reqs: requirements.txt: more than 0 cases for foo-bar\n"
    yield "too many cases:", ["matrix", *environments, "--limit", "0"], room, (2, b"", cases)
    yield "too many cases in all:", ["matrix", *environments, "--cases", "0"], room, (
        2, b"", b"reqs: requirements.txt: more than 0 cases in all\n")
    yield "no list of environments:", ["matrix", *files], room, (2, b"", b"reqs: environment.json: not a list\n")
    yield from commands_on_lists(room)
    yield from commands_for_objects(room, files)
    yield from commands_of_rows(room)
    yield "a line that is no requirement:", ["check", "unread", *files[1:]], room, (2, b"", UNREAD)
    yield "a candidate's name:", ["check", *files[:2], "name"], room, (2, b"", b"reqs: name: line 2: name\n")
    yield "a candidate's version:", ["check", *files[:2], "version"], room, (2, b"", b"reqs: version: line 2: version\n")
    yield "no environment:", ["check", files[0], "absent", files[2]], room, (3, b"", b"reqs: absent: read fault\n")
    yield "extras:", ["check", *files, "Dev_Extra", "tests"], room, (0, b"foo-bar 1.19\n", b"")
    yield "a wrong extra:", ["check", *files, "dev-"], room, (2, b"", b"reqs: extra dev- is no name\n")
    # (nothing stands there, so no candidate)
    yield "standard input:", ["check", *files[:2], "-"], room, (0, b"foo-bar none\n", b"")
    yield "a path that is no text:", ["check", *files[:2], os.fsdecode(b"\xff\xfe")], room, (2, b"", NO_TEXT)
    yield "help:", ["--help"], room, (0, read(os.path.join(TOP, "tests", "help.txt")), b"")
    yield "version:", ["--version"], room, (0, b"reqs 0.3.0\n", b"")
    yield "a wrong word:", ["judge"], room, (2, b"", WRONG_WORD)


def commands_on_lists(room):
    """The commands on lists alone, in the same form."""
    texts = {
        "LEFT": b"Foo_Bar[b,a]>=1,<2 ; python_version >= '3.8'\nx==1 ; os_name == 'nt' or extra == 'dev'\n",
        "RIGHT": b"x==1.0 ; os_name == 'nt' or extra == 'dev'\nfoo-bar[a]<2 ; python_version >= '3.8'\n"
                 b"foo-bar[b]>=1 ; python_version >= '3.8'\n",
        "OTHER": b"foo-bar>=1,<2 ; python_version >= '3.8'\n",
        "URL": b"foo-bar @ https://e.example/foo.whl\n",
        "REQS": b"",
        "APART": b"foo>=2\nbar>1,<1,!=0.5a1\nfoo<1 ; os_name == 'nt'\n",
    }
    for name, text in texts.items():
        with open(os.path.join(room, name), "wb") as file:
            file.write(text)
    yield "same, yes:", ["same", "LEFT", "RIGHT"], room, (0, b"yes\n", b"")
    yield "same, no:", ["same", "LEFT", "OTHER"], room, (1, b"no\nfoo-bar\npython_full_version >= '3.8'\n", b"")
    yield "same, everywhere:", ["same", "APART", "RIGHT"], room, (1, b"no\nbar\nall environments\n", b"")
    cases = b"reqs: RIGHT: more than 1 cases for foo-bar\n"
    yield "same, too many cases:", ["same", "REQS", "RIGHT", "--limit", "1"], room, (2, b"", cases)
    yield "same, too many nodes:", ["same", "LEFT", "RIGHT", "--nodes", "1"], room, (
        2, b"", b"reqs: LEFT: line 2: more than 1 nodes\n")
    yield "same, too many clauses:", ["same", "OTHER", "LEFT", "--nodes", "9", "--clauses", "0"], room, (
        2, b"", b"reqs: more than 0 clauses for foo-bar\n")
    yield "same, a URL:", ["same", "LEFT", "URL"], room, (2, b"", b"reqs: URL: line 1: URL\n")
    yield "covers, yes:", ["covers", "LEFT", "OTHER"], room, (0, b"yes\n", b"")
    yield "covers, no:", ["covers", "OTHER", "LEFT"], room, (1, b"no\nfoo-bar\npython_full_version >= '3.8'\n1\n", b"")
    yield "covers, everywhere:", ["covers", "RIGHT", "APART"], room, (1, b"no\nbar\nall environments\n2\n", b"")
    yield "covers, too many cases:", ["covers", "REQS", "RIGHT", "--limit", "1"], room, (2, b"", cases)
    yield "covers, too many clauses:", ["covers", "OTHER", "LEFT", "--clauses", "0"], room, (
        2, b"", b"reqs: more than 0 clauses for foo-bar\n")
    yield "covers, a URL:", ["covers", "URL", "LEFT"], room, (2, b"", b"reqs: URL: line 1: URL\n")
    yield "conflicts:", ["conflicts", "APART"], room, (0, b"bar 2 pre\nfoo 1,3\n", b"")
    here = ["--assume", "os_name == 'nt'"]
    yield "same, assuming:", ["same", "APART", "RIGHT", *here], room, (1, b"no\nbar\nos_name == 'nt'\n", b"")
    yield "covers, assuming:", ["covers", "RIGHT", "APART", *here], room, (1, b"no\nbar\nos_name == 'nt'\n2\n", b"")
    yield "conflicts, assuming:", ["conflicts", "APART", *here], room, (0, b"bar 2 pre\nfoo 1,3\n", b"")
    yield "an assumption that is no marker:", ["conflicts", "APART", "--assume", "bad"], room, (
        2, b"", b"reqs: assumption: line 1, byte 0, length 3\nExpected a quoted string or a valid marker name, found `bad`\nbad\n^^^\n")
    yield "conflicts, too many cases:", ["conflicts", "APART", "--limit", "1"], room, (
        2, b"", b"reqs: APART: more than 1 cases for foo\n")
    yield "conflicts, too many cases in all:", ["conflicts", "APART", "--cases", "2"], room, (
        2, b"", b"reqs: APART: more than 2 cases in all\n")
    normal = (b"foo-bar[b,a]>=1,<2 ; python_full_version >= '3.8'\n"
              b"x==1 ; extra == 'dev' or os_name == 'nt'\n")
    yield "normal:", ["normal", "LEFT"], room, (0, normal, b"")
    yield "normal, too many clauses:", ["normal", "LEFT", "--clauses", "1"], room, (
        2, b"", b"reqs: LEFT: line 2: more than 1 clauses\n")
    yield "normal, a URL:", ["normal", "URL"], room, (2, b"", b"reqs: URL: line 1: URL\n")


def commands_for_objects(room, files):
    """Commands that are asked for objects, in the same form; they stand on the files of the others."""
    packages = b'"packages":[{"extras":[],"name":"foo-bar","outcome":"version","version":"1.19"}]}'
    environments, asked = [files[0], "environments", files[2]], ["--format", "json"]
    yield "an object:", ["check", *files, *asked], room, (0, b"{" + packages + b"\n", b"")
    numbered = b'{"number":1,' + packages + b',{"number":2,' + packages
    yield "matrix, an object:", ["matrix", *environments, *asked], room, (0, b'{"environments":[' + numbered + b"]}\n", b"")
    yield "same, an object:", ["same", "APART", "RIGHT", *asked], room, (
        1, b'{"marker":null,"package":"bar","same":false}\n', b"")
    yield "covers, an object:", ["covers", "RIGHT", "APART", *asked], room, (
        1, b'{"covers":false,"lines":[2],"marker":null,"package":"bar"}\n', b"")
    yield "conflicts, an object:", ["conflicts", "APART", *asked], room, (
        0, b'{"conflicts":[{"lines":[2],"package":"bar","prerelease":true},'
           b'{"lines":[1,3],"package":"foo","prerelease":false}]}\n', b"")
    yield "normal, an object:", ["normal", "OTHER", *asked], room, (
        0, b'{"requirements":["foo-bar>=1,<2 ; python_full_version >= \'3.8\'"]}\n', b"")
    yield "an object of a line:", ["check", "unread", *files[1:], *asked], room, (2, b"", fault_line(UNREAD))
    yield "an object of no file:", ["normal", "absent", *asked], room, (3, b"", fault_line(b"reqs: absent: read fault\n"))
    twice = fault_line(b"reqs: standard input (-) can be one input alone\n")
    yield "an object of standard input:", ["same", "-", "-", *asked], room, (2, b"", twice)


def commands_of_rows(room):
    """A run of each command, for a text and for an object, in the same form."""
    for row in ROWS:
        folder = os.path.join(room, row.command)
        os.makedirs(folder)
        for path, text in row.inputs.items():
            with open(os.path.join(folder, path), "wb") as file:
                file.write(text)
        for form in FORMATS:
            yield f"{row.command}, {form}:", row.words(form), folder, (row.status, row.answers[form], b"")


def tasks(library, room):
    for name, words, folder, wanted in commands(room):
        yield library, name, [REQS, *words], folder, wanted, None
    of_all = questions()
    for name, step in VECTORS.items():
        for number, (question, answer) in enumerate(of_all[name]):
            asked = json.loads(question)[0]
            if number % step == 0 or asked in KEPT:
                yield library, kind_of(asked), [PROGRAM], name, (0, answer, b""), question


def kind_of(asked):
    return f"questions of {asked}:"


def questions():
    """By crate its questions, each with what is printed for it: the question, and the answer's lines."""
    asked = [(name, it) for name in VECTORS for it in read(os.path.join(QUESTIONS, "data", f"{name}.jsonl")).splitlines()]
    left, at, found = read(os.path.join(QUESTIONS, "stdout")), 0, {it: [] for it in VECTORS}
    for (name, question), following in zip(asked, [*asked[1:], None]):
        end = len(left) if following is None else left.find(b"\n" + following[1] + b" ", at) + 1
        if not left.startswith(question + b" ", at) or not end:
            sys.exit("refused.py: crates/questions/stdout has not the answers to the questions in turn")
        found[name].append((question, left[at:end]))
        at = end
    return found


def work(task):
    library, kind, words, folder, wanted, question = task
    if question is None:
        return try_command(library, kind, words, folder, wanted)
    with tempfile.TemporaryDirectory(prefix="refused-") as room:
        shutil.copy(os.path.join(QUESTIONS, "data", "environments.txt"), room)
        with open(os.path.join(room, f"{folder}.jsonl"), "wb") as file:
            file.write(question + b"\n")
        tally = try_command(library, kind, words, room, wanted)
    tally.faults = [f"{it} ({question.decode()})" for it in tally.faults]
    return tally


def main(words):
    if len(words) != 1:
        sys.exit(__doc__)
    tallies = {}
    lanes = len(os.sched_getaffinity(0))
    with tempfile.TemporaryDirectory(prefix="refused-") as room, multiprocessing.Pool(lanes) as pool:
        for it in pool.imap(work, tasks(os.path.abspath(words[0]), room), chunksize=4):
            tallies.setdefault(it.kind, Tally(it.kind)).add(it)
        kept = rows_are_kept(os.path.abspath(words[0]), room)
        tallies[kept.kind] = kept
    for it in tallies.values():
        for fault in it.faults[:5]:
            print(f"FAILED: {fault[:600]}")
        if len(it.faults) > 5:
            print(f"FAILED: {it.kind} {len(it.faults) - 5} more")
        print(f"{it.kind} {it.requests} requests, {it.runs} runs, {it.harmless} of them answered all the same")
    passed = sum(not it.faults for it in tallies.values())
    failed = len(tallies) - passed
    print(f"refused: {passed} passed, {failed} failed")
    return 1 if failed else 0


if __name__ == "__main__":
    sys.exit(main(sys.argv[1:]))
