#!/usr/bin/env python3
"""Makes the calls of the library for C, by programs in C that link it.

    c.py SHARED STATIC DEEP FORKS REFUSE LIBRARIES

SHARED and STATIC are tests/c/serve.c linked with libreqs.so and with libreqs.a, DEEP is tests/c/deep.c, FORKS is
tests/c/forks.c, REFUSE is tests/refuse.c as a shared library, LIBRARIES is the folder of the two. What calls have to
answer is of elsewhere: the examples and the stored runs of the command, whose answers are the calls', and rows of PEP 440
and PEP 508. What is answered as JSON has to tell the text of the same run. Each call is made with ample room; one of each
kind with room of each smaller size, and with each of its requests for memory refused in turn. The program of docs/C.md is
compiled by the commands there, and has to print what stands there. The odd inputs of fuzz.py are asked once. The last line is
`c: N passed, M failed`.
"""

import json
import os
import re
import struct
import subprocess
import sys
import tempfile
from concurrent.futures import ThreadPoolExecutor

import fuzz
import objects
from calls import NO_BOUND, request

TOP = os.path.dirname(os.path.dirname(os.path.abspath(__file__)))
INTERFACE = 4
ROOM = 1 << 20
LIMIT = 4096
ANSWERED, DIFFERENT, REFUSED, MEMORY = range(4)
# What a buffer holds before a call.
WAS = 0xA5
# Every request after the first that is refused; and more than any call here makes.
ALL, MOST_REQUESTS = 2 ** 62, 5000
# What is given back counts as given back at once.
AT_ONCE = {"GLIBC_TUNABLES": "glibc.malloc.tcache_count=0"}
# Instructions by which it is seen that code was made for newer processors than the oldest of x86-64.
BEYOND = {*"popcnt pshufb ptest pextrb pextrd pextrq pinsrb pinsrd pinsrq pblendw pblendvb pmovsxbd pmovzxwd pmaxuw pcmpgtq".split()}
# How many extras the deepest trees have: one that is asked, and one that is printed; and the threads' stack in KiB.
DEEP = ("100000", "1000", "512")
# How often a process with threads forks, and the allocator's settings under which it does: its own, and such that all threads
# wait for one lock.
FORKS = "400"
ALLOCATORS = {"each thread's memory": {}, "one memory": {"GLIBC_TUNABLES": "glibc.malloc.arena_max=1:glibc.malloc.tcache_count=0"}}

passed, failed = 0, []


def wants(what, is_so, told=""):
    global passed
    if is_so:
        passed += 1
    else:
        failed.append(what)
        print(f"FAILED: {what}{': ' if told != '' else ''}{told if told != '' else ''}")


class Reply:
    """How a call ended: what it returned, and what its room holds."""

    def __init__(self, told, room):
        self.status, self.input, self.length, self.line, self.start, self.len, self.grown, behind = told
        self.number = struct.unpack("<q", struct.pack("<Q", self.length))[0]
        self.behind, self.room = bool(behind), room

    def text(self):
        return self.room[: self.length]

    def place(self):
        return self.input, self.line, self.start, self.len

    def __repr__(self):
        return f"status {self.status}, length {self.number}, place {self.place()}, {self.room[:200]!r}"


def made(program, calls):
    """What a program replies to calls, each a name, its texts, and where they aren't the usual ones a limit, a room, and how many
    nodes, clauses and cases in all it may make."""
    asked = [request(name, texts, *(more or (LIMIT, ROOM))) for name, texts, *more in calls]
    ran = subprocess.run([program], input=b"".join(asked), capture_output=True, env=AT_ONCE)
    if ran.returncode:
        raise SystemExit(f"FAILED: {os.path.basename(program)} ended with status {ran.returncode}\nc: {passed} passed, 1 failed")
    replies, at = [], 0
    for _, _, *more in calls:
        room = (more or (LIMIT, ROOM))[1]
        replies.append(Reply(struct.unpack_from("<8Q", ran.stdout, at), ran.stdout[at + 64 : at + 64 + room]))
        at += 64 + room
    return replies


def read(*path):
    with open(os.path.join(TOP, *path), "rb") as file:
        return file.read()


def in_lots(calls, many=40):
    return [calls[at : at + many] for at in range(0, len(calls), many)]


# ---- what calls have to answer: a name, a call, a status, its text, and a place

ENVIRONMENT = read("examples", "first", "environment.json")


def of_examples():
    folder = os.path.join(TOP, "examples")
    for name in sorted(os.listdir(folder)):
        files = os.listdir(os.path.join(folder, name)) if os.path.isdir(os.path.join(folder, name)) else []
        texts = {it: read("examples", name, it) for it in files}
        lists = [texts.get(it) for it in ("requirements.txt", "environment.json", "candidates.txt")]
        if "expected.txt" in texts and None not in lists:
            yield f"examples/{name}", ("check", [*lists, b""]), ANSWERED, texts["expected.txt"]
        if "environments.json" in texts:
            lists[1] = texts["environments.json"]
            wanted = texts.get("expected_matrix.txt", texts.get("expected.txt"))
            yield f"examples/{name}, environments", ("matrix", [*lists, b""]), ANSWERED, wanted
        if name == "lock":
            before, after, rewritten = texts["before.txt"], texts["after.txt"], texts["rewritten.txt"]
            yield "examples/lock, same", ("same", [before, after]), DIFFERENT, texts["expected_same.txt"]
            yield "examples/lock, rewritten", ("same", [before, rewritten]), ANSWERED, b"yes\n"
        if name == "apart":
            yield "examples/apart", ("conflicts", lists[:1]), ANSWERED, texts["expected_conflicts.txt"]


NAMES = {"check": ("requirements", "environment", "candidates"), "matrix": ("requirements", "environments", "candidates"),
         "same": ("left", "right"), "covers": ("lock", "requirements"), "conflicts": ("requirements",),
         "normal": ("requirements",)}
BOUNDS = "nodes", "clauses", "cases"
# (the requirements are the last text of each command on lists)
PATHS = {"R": 0, "E": 1, "C": 2, "LEFT": 0, "RIGHT": 1, "LOCK": 0, "REQS": -1}


def of_runs():
    """The stored runs of the command."""
    told = json.loads(read("tests", "runs.json"))
    as_bytes = lambda text: text.encode("utf-8", "surrogateescape")
    for kind in ("runs", "worked", "matrix", "lists"):
        for run in told[kind]:
            call, texts = call_of(kind, run, told["environment"])
            most = [run.get(it, NO_BOUND) for it in BOUNDS]
            yield run, (call, [as_bytes(it) for it in texts], run.get("limit", LIMIT), ROOM, *most)


def call_of(kind, run, environment):
    """A run's call and its texts."""
    if kind == "lists":
        call = run["command"]
        lists = [run[it] for it in NAMES[call]]
        return (f"{call} where", [*lists, run["assume"]]) if "assume" in run else (call, lists)
    call, where = "check", run.get("environment", environment)
    if kind == "matrix":
        call = kind
        if "environments" in run:
            usual = json.loads(environment)
            each = [{**usual, **it} for it in run["environments"]]
            where = json.dumps([{name: it for name, it in one.items() if it is not None} for one in each])
    extras = "".join(f"{it}\n" for it in run.get("extras", []))
    return call, [run["requirements"], where, run["candidates"], extras]


# Normal texts (PEP 440, "Normalization"; PEP 508), and texts that are none.
TEXTS = [
    ("version", "1.1RC1", "1.1rc1"), ("version", "1.0-alpha_1", "1.0a1"), ("version", "v1.0.post-2", "1.0.post2"),
    ("version", "1.0-r4", "1.0.post4"), ("version", "1!2012.04", "1!2012.4"), ("version", "1.0+ubuntu-1", "1.0+ubuntu.1"),
    ("version", " 1.2.dev ", "1.2.dev0"), ("version", "00", "0"),
    ("specifiers", "<2, >= 1.0,!=1.5.*", ">=1.0\n!=1.5.*\n<2\n"), ("specifiers", "", ""), ("specifiers", "~= 2.2", "~=2.2\n"),
    ("requirement", "requests [security,tests] >= 2.8.1, == 2.8.* ; python_version < \"2.7\"",
     "requests\nsecurity,tests\n==2.8.*,>=2.8.1\n\n46 23"),
    ("requirement", "n @ https://e.org/a;b ; extra == 'é'", "n\n\n\nhttps://e.org/a;b\n23 14"),
    ("requirement", "A[b,c];os_name=='b'  ", "a\nb,c\n\n\n7 14"),
    ("requirement", "a ;os_name == ';'", "a\n\n\n\n3 14"),
    ("requirement", "pip @ https://github.com/pypa/pip/archive/1.3.1.zip#sha1=da9234ee9982d4bbb3c72346a6de940a148ea686",
     "pip\n\n\nhttps://github.com/pypa/pip/archive/1.3.1.zip#sha1=da9234ee9982d4bbb3c72346a6de940a148ea686\n"),
    ("requirement", "A.B-C_D", "a-b-c-d\n\n\n\n"),
    ("requirement", "name>=3,<2", "name\n\n<2,>=3\n\n"),
    ("marker", "os_name=='a' or os_name=='b' or os_name == 'a'", "os_name == 'a' or os_name == 'b'"),
    ("marker", "os_name == 'a' or os_name != 'a'", ""),
    ("marker", "'linux' == sys_platform and (extra=='X_y')", "sys_platform == 'linux' and extra == 'x-y'"),
]
# What is answered on the meaning of markers (PEP 508, "Environment Markers"), by a call and its texts. The last of those for a
# range of Python versions and with extras are of the tests of uv's pep508 crate.
MEANT = [
    ("truth", ["os_name == 'a' or os_name != 'a'"], "1"), ("truth", ["os_name == 'a' and os_name == 'b'"], "0"),
    ("truth", ["os_name == 'a'"], "-"), ("truth", ["python_version < '3' or python_full_version >= '3.0'"], "1"),
    ("truth", ["os_name == \"a'\" and os_name != \"a'\""], "0"), ("truth", ["python_implementation == 'x'"], "-"),
    ("disjoint", ["python_version < '3'", "python_full_version >= '3.0.1'"], "1"), ("disjoint", ["os_name == 'a'", "os_name >= 'a'"], "0"),
    ("disjoint", ["os_name == 'a'", "sys_platform == 'b'"], "0"), ("disjoint", ["extra == 'A_b'", "extra != 'a-b'"], "1"),
    ("implies", ["python_version >= '3.9'", "python_version >= '3.8'"], "1"),
    ("implies", ["python_version >= '3.8'", "python_version >= '3.9'"], "0"),
    ("implies", ["os_name == 'a' and extra == 'x'", "extra == 'x'"], "1"),
    ("implies", ["extra == 'x'", "os_name == 'a' and extra == 'x'"], "0"),
    ("implies", ["os_name == 'a' and os_name == 'b'", "extra == 'x'"], "1"),
    ("negated", ["os_name == 'a'"], "os_name != 'a'"), ("negated", ["os_name == 'a' or extra == 'x'"], "os_name != 'a' and extra != 'x'"),
    ("negated", ["python_version < '3.8'"], "python_full_version >= '3.8'"), ("negated", ["os_name == 'a' and os_name == 'b'"], ""),
    ("python", ["os_name == 'a' and python_version >= '3.8'", "3.8", ""], "os_name == 'a'"),
    ("python", ["python_version < '3.12' or os_name == 'a'", "", "3.12"], ""),
    ("python", ["python_version < '3.12' and python_version > '3.7'", "", ""],
     "python_full_version >= '3.8' and python_full_version < '3.12'"),
    ("python", ["(python_version <= '3.11' and sys_platform == 'win32') or python_version > '3.11'", "3.12", ""], ""),
    ("python", ["python_version < '3.10'", "3.7", ""], "python_full_version < '3.10'"),
    ("python", ["python_version <= '3.12'", "3.12", ""], "python_full_version < '3.13'"),
    ("extras", ["(extra == 'foo' and sys_platform == 'win32') or extra == 'foo'", "foo\n"], ""),
    ("extras", ["sys_platform == 'linux' and extra == 'dev'", "x\n\nDEV"], "sys_platform == 'linux'"),
    ("extras", ["sys_platform == 'linux' and extra == 'dev'", ""], "sys_platform == 'linux' and extra == 'dev'"),
]
# Markers of one meaning on each line, and no two lines of one meaning: keys are the same within a line and nowhere else.
ALIKE = [
    ["os_name == 'a' or os_name == 'b'", "os_name=='b' or (os_name == 'a' or os_name == 'b')"],
    ["os_name == 'a' and sys_platform == 'b'", "sys_platform == 'b' and 'a' == os_name"],
    ["os_name == \"a' and sys_platform == 'b\""], ["os_name == 'a'"], ["os_name == 'b'"], ["os_name != 'a'"], ["os_name == \"a'\""],
    ["implementation_version in '1'", "implementation_version == '1.0'"], ["implementation_version in '1+x'"],
    ["python_version >= '3.8'", "python_full_version >= '3.8.0'"], ["python_full_version > '3.8'"],
    ["python_full_version >= '3.8' and python_full_version < '3.9'", "python_version == '3.8'"],
    ["extra == 'a-b'", "extra == 'A_B'"], ["os_name == 'a' or os_name != 'a'", "extra == 'a' or extra != 'a'"],
    ["os_name == 'a' and os_name == 'b'", "extra == 'a' and extra != 'a'"],
    ["os_name == 'ab' or os_name == 'c'"], ["os_name == 'a' or os_name == 'bc'"],
]
# Lists of specifiers as ranges.
RANGES = [
    ("ranges disjoint", ["<2", ">=2"], "1"), ("ranges disjoint", ["<=2", ">=2"], "0"), ("ranges disjoint", ["==1.5.*", "!=1.5.*"], "1"),
    ("ranges disjoint", ["<2,!=1.5", "==1.5"], "1"), ("ranges disjoint", ["", "==1"], "0"), ("ranges disjoint", ["<1,>2", ""], "1"),
    ("subset", [">=1.2,<2", "~=1.2"], "1"), ("subset", ["~=1.2", ">=1.2,<2"], "0"), ("subset", ["~=1.2", ">=1.2,==1.*"], "1"),
    ("subset", ["==1.5", ">=1,<2"], "1"), ("subset", [">=1,<2", "==1.5"], "0"), ("subset", [">=1", ""], "1"), ("subset", ["", ">=1"], "0"),
    ("subset", ["<1,>2", "==7"], "1"), ("subset", ["!=1.5.*", "!=1.5"], "1"),
    ("empty", ["<1,>2"], "1"), ("empty", ["==1.5"], "0"), ("empty", [""], "0"), ("empty", ["==1.5,!=1.5.0"], "1"),
    ("empty", ["~=1.2,>=2.dev0"], "1"), ("empty", [">1.5,<1.6"], "0"),
]
AT_END = "~=18446744073709551615.0"
# Refused texts, with the place that is told: its first byte and how many.
REFUSALS = [
    ("version", "", (0, 0)), ("version", "1.0.*", (0, 5)), ("version", "1.0 2", (0, 5)), ("version", "a", (0, 1)),
    ("version", "99999999999999999999", (0, 20)), ("version", "1+", (0, 2)),
    ("specifiers", ">=1,=2,<3", (4, 2)), ("specifiers", "1.0", (0, 3)), ("specifiers", ">=1,", (4, 0)),
    ("requirement", "", None), ("requirement", "name[", None), ("requirement", "name @ ", None), ("requirement", "n <", None),
    ("requirement", "name; python_version", None), ("requirement", "-a", (0, 1)),
    ("marker", "os_name", None), ("marker", "(os_name == 'a'", None), ("marker", "os_name == 'a' nor", None), ("marker", "", None),
    ("checked", "os_name == 'a' nor", None), ("checked", "", None),
]
# What is refused of several texts: the number of the one at fault, its place, and what is said where that is of this library alone.
FAULTS = [
    ("marker", ["os_name == \"a'\""], (1, 0, 0, 0), "no normal text: single quote"),
    ("marker", ["os.name == 'a'"], (1, 0, 0, 0), "no normal text: deprecated key"),
    ("marker", ["implementation_version in '1.0+x'"], (1, 0, 0, 0), "no normal text: version bound"),
    ("marker", ["os_name == 'a' and os_name == 'b'"], (1, 0, 0, 0), "no normal text: never holds"),
    ("negated", ["os_name == 'a' or os_name != 'a'"], (1, 0, 0, 0), "no normal text: never holds"),
    ("negated", ["os_name != \"a'\""], (1, 0, 0, 0), "no normal text: single quote"),
    ("python", ["python_version < '3.8'", "3.8", ""], (1, 0, 0, 0), "no normal text: never holds"),
    ("extras", ["extra != 'a'", "a\n"], (1, 0, 0, 0), "no normal text: never holds"),
    ("python", ["os_name == 'a'", "x", "y"], (2, 0, 0, 1), None), ("python", ["os_name == 'a'", "3.8", "3.8.*"], (3, 0, 0, 5), None),
    ("extras", ["os_name == 'a'", "b\n-\n"], (2, 0, 0, 0), "extra - is no name"),
    ("ranges disjoint", [">=1,2", "2"], (1, 0, 4, 1), None), ("ranges disjoint", [">=1", "<1,2"], (2, 0, 3, 1), None),
    ("subset", [AT_END, ">=1"], (1, 0, 0, 0), "a version number can't be raised"),
    ("subset", [">=1", ">1," + AT_END], (2, 0, 0, 0), "a version number can't be raised"),
    ("empty", [AT_END], (1, 0, 0, 0), "a version number can't be raised"), ("empty", ["1"], (1, 0, 0, 1), None),
    ("same where", ["-r x", "b", "os_name == 'nt' and bad == 'x'"], (3, 0, 20, 3), None),
    ("covers where", ["-r x", "b", "os_name == 'nt' and bad == 'x'"], (3, 0, 20, 3), None),
    ("conflicts where", ["-r x", "os_name == 'nt' and bad == 'x'"], (2, 0, 20, 3), None),
    ("same where", ["a @ https://e.org/a", "b", "os_name == 'nt'"], (1, 1, 0, 0), "left: line 1: URL"),
    ("covers where", ["b", "a @ https://e.org/a", "os_name == 'nt'"], (2, 1, 0, 0), "requirements: line 1: URL"),
]
# Calls that make trees, with texts of which they make some, and whether they write a marker.
SOME = "os_name == 'a' and extra == 'x' or os_name == 'b' and extra == 'y'"
BOUNDED = [
    ("marker", [SOME], True), ("negated", [SOME], True), ("python", [SOME, "3.8", ""], True), ("extras", [SOME, "z\n"], True),
    ("marker key", [SOME], False), ("truth", [SOME], False), ("disjoint", [SOME, "os_name == 'c' and extra == 'z'"], False),
    ("implies", ["os_name == 'c' and extra == 'z'", SOME], False),
]
# Calls on lists that are bounded, the bounds that each has, and what it has to answer without one.
LINES = f"b\na>=2 ; {SOME}\na<1 ; sys_platform == 'z'\n"
OTHERS = f"b\na>=2 ; ({SOME}) and sys_platform != 'z'\n"
BOUNDED_LISTS = [
    (f"{call}{form}", texts, kinds, status)
    for call, texts, kinds, status in (
        ("matrix", [LINES, "[]", "", ""], ("nodes", "cases"), 0), ("same", [LINES, OTHERS], ("nodes", "clauses", "cases"), 1),
        ("covers", [OTHERS, LINES], ("nodes", "clauses", "cases"), 1), ("conflicts", [LINES], ("nodes", "cases"), 0), ("normal", [LINES], ("nodes", "clauses"), 0),
        ("same where", [LINES, OTHERS, "extra == 'x'"], ("nodes", "clauses", "cases"), 1),
        ("covers where", [OTHERS, LINES, "extra == 'x'"], ("nodes", "clauses", "cases"), 1),
        ("conflicts where", [LINES, "extra == 'x'"], ("nodes", "cases"), 0))
    for form in ("", " json")
]
# The bounds by which the other faces call, and markers that are beyond them: with 2^30 nodes and more, and with 2^30 clauses.
USUAL = 1_000_000, 100_000
NODES_GROW = " or ".join(f"extra == 'a{it}' and extra == 'b{it}'" for it in range(10, 40))
CLAUSES_GROW = " and ".join(f"(extra == 'x{it}a' or extra == 'x{it}b')" for it in range(10, 40))
# Calls whose texts are all of one kind, and a text that none of them reads, with how many they have.
UNREAD = [("checked", 1), ("truth", 1), ("marker key", 1), ("negated", 1), ("disjoint", 2), ("implies", 2), ("python", 3), ("extras", 2),
          ("ranges disjoint", 2), ("subset", 2)]
# How versions stand to each other, from PEP 440's "Summary of permitted suffixes and relative ordering".
RISING = ["1.dev0", "1.0.dev456", "1.0a1", "1.0a2.dev456", "1.0a12.dev456", "1.0a12", "1.0b1.dev456", "1.0b2", "1.0b2.post345.dev456",
          "1.0b2.post345", "1.0rc1.dev456", "1.0rc1", "1.0", "1.0+abc.5", "1.0+abc.7", "1.0+5", "1.0.post456.dev34", "1.0.post456",
          "1.0.15", "1.1.dev1", "1!0.1"]
SAME = [("1.0", "1"), ("1.0rc1", "1c1"), ("1.0-1", "1.post1"), ("1.0+A-b", "1+a.b")]
# What lists of specifiers take: PEP 440, "Version specifiers".
TAKEN = [
    ("~=2.2", ["2.2", "2.3", "3.0", "2.1", "2.2.post3"], "11001"), ("~=1.4.5.0", ["1.4.5", "1.4.6", "1.5"], "100"),
    ("==1.1", ["1.1", "1.1.0", "1.1.post1", "1.1.dev1", "1.1a1", "1.1+x"], "110001"),
    ("==1.1.*", ["1.1.post1", "1.1a1", "1.2", "2"], "1100"), ("!=1.1.post1", ["1.1", "1.1.post1"], "10"),
    (">1.7", ["1.7.1", "1.7.0.post1", "1.7", "1.8"], "1001"), (">1.7.post2", ["1.7.1", "1.7.0.post3", "1.7.0"], "110"),
    ("<3.1", ["3.1.dev0", "3.1rc1", "3.0.15"], "001"), ("===1.0", ["1.0", "1.0+downstream1", "1"], "100"),
    ("", ["1", "", "no", "1.0a1"], "1??1"), (">=1,<2", ["1.5", "2", "1.5 # c", "1.9.dev1"], "10?1"),
]
HELD = [
    ("os_name == 'posix'\nos_name != 'posix'\nextra == 'X.y'\nextra == 'z'\n\npython_version >= '3.8'\nnone == 1", "x-y\n\n"),
]


def environment():
    return json.dumps({
        "implementation_name": "cpython", "implementation_version": "3.11.4", "os_name": "posix", "platform_machine": "x86_64",
        "platform_python_implementation": "CPython", "platform_release": "5.4", "platform_system": "Linux", "platform_version": "#1",
        "python_full_version": "3.11.4", "python_version": "3.11", "sys_platform": "linux"}).encode()


def text_told(call, reply):
    """The text that a call for JSON tells: that of its object, which has to be written as the command does, or why it is refused."""
    if reply.status == REFUSED:
        return reply.text()
    try:
        answer = json.loads(reply.text())
        is_line = objects.line_of(answer).encode() == reply.text()
        return objects.text_of(call.removesuffix(" where"), answer).encode() if is_line else None
    except (ValueError, KeyError, TypeError, AssertionError):
        return None


# ---- the tests

def answers(program):
    """Calls with ample room, by a program."""
    for name, (call, texts), status, text in of_examples():
        reply, as_json = made(program, [(call, texts), (f"{call} json", texts)])
        wants(name, (reply.status, reply.text(), reply.place()) == (status, text, (0, 0, 0, 0)), reply)
        told = as_json.status, text_told(call, as_json), as_json.place()
        wants(f"{name}, as JSON", told == (status, text, (0, 0, 0, 0)), as_json)
    for call, text, wanted in TEXTS:
        reply = made(program, [(call, [text.encode()])])[0]
        wants(f"{call} of {text!r}", (reply.status, reply.text().decode()) == (ANSWERED, wanted), reply)
    for call, text, place in REFUSALS:
        reply = made(program, [(call, [text.encode()])])[0]
        is_place = reply.place() == (1, 0, *place) if place else reply.input == 1 and reply.start + reply.len <= len(text) + 1
        wants(f"{call} of {text!r} is refused", reply.status == REFUSED and is_place and reply.length > 0, reply)
    for call in ("version", "specifiers", "requirement", "checked", "marker", "marker key", "truth", "negated", "empty"):
        reply = made(program, [(call, [b"ab\xffc"])])[0]
        wants(f"{call} of bytes that are no text", (reply.status, reply.place(), reply.text())
              == (REFUSED, (1, 0, 2, 0), b"not UTF-8 at byte 2"), reply)
    for call, texts in (("same where", 3), ("covers where", 3), ("conflicts where", 2)):
        reply = made(program, [(call, [b"\xff"] * (texts - 1) + [b"ab\xffc"])])[0]
        wants(f"{call}: an assumption that is no text", (reply.status, reply.place(), reply.text())
              == (REFUSED, (texts, 0, 2, 0), b"not UTF-8 at byte 2"), reply)
    wants("the interface's number", made(program, [("abi", [])])[0].number == INTERFACE)


def meanings(program):
    """What markers mean, and lists of specifiers as ranges."""
    for call, texts, wanted in [*MEANT, *RANGES]:
        reply = made(program, [(call, [it.encode() for it in texts])])[0]
        wants(f"{call} of {texts}", (reply.status, reply.text().decode(), reply.place()) == (ANSWERED, wanted, (0, 0, 0, 0)), reply)
    for call, texts, place, message in FAULTS:
        reply = made(program, [(call, [it.encode() for it in texts])])[0]
        is_said = reply.length > 0 if message is None else reply.text().decode() == message
        wants(f"{call} of {texts} is refused", (reply.status, reply.place()) == (REFUSED, place) and is_said, reply)
    for call, texts in UNREAD:
        usual = b"==1" if call in ("ranges disjoint", "subset") else b"os_name == 'a'"
        first, *last = made(program, [(call, [*[usual] * at, *[b"\xff"] * (texts - at)]) for at in (0, 1)[:texts]])
        wants(f"{call}: the first of several texts is refused", (first.status, first.place()) == (REFUSED, (1, 0, 0, 0)), first)
        wants(f"{call}: the second is refused", all((it.status, it.place()) == (REFUSED, (2, 0, 0, 0)) for it in last), last)


def checked(program):
    """Texts that are markers, whatever their trees are."""
    for text in (SOME, "os_name == \"a'\"", "os_name == 'a' and os_name == 'b'", "'a' == 'b'", NODES_GROW, CLAUSES_GROW):
        reply = made(program, [("checked", [text.encode()])])[0]
        wants(f"{text[:60]!r} is a marker", (reply.status, reply.length, reply.place()) == (ANSWERED, 0, (0, 0, 0, 0)), reply)


def bounds(program):
    """A bound that is exactly reached answers, and each smaller one is refused, by its number."""
    for call, texts, writes in BOUNDED:
        texts = [it.encode() for it in texts]
        whole = made(program, [(call, texts)])[0]
        for what, at in (("nodes", 0), ("clauses", 1))[: 1 + writes]:
            numbers = [[it, NO_BOUND] if at == 0 else [NO_BOUND, it] for it in range(24)]
            replies = made(program, [(call, texts, LIMIT, 64 + whole.length, *it) for it in numbers])
            first = next((number for number, it in enumerate(replies) if it.status == ANSWERED), 0)
            answers = all((it.status, it.text()) == (ANSWERED, whole.text()) for it in replies[first:])
            wants(f"{call} answers from a number of {what} on", 0 < first < 24 and answers, replies[first])
            refused = all((it.status, it.place()[1:], it.text().decode()) == (REFUSED, (0, 0, 0), f"more than {number} {what}")
                          and 1 <= it.input <= (2 if call in ("disjoint", "implies") else 1) for number, it in enumerate(replies[:first]))
            wants(f"{call} is refused with fewer {what}", refused, replies[:first])
    always, some = b"'x' == 'y'", SOME.encode()
    for texts, number in (([some, always], 1), ([always, some], 2)):
        reply = made(program, [("implies", texts, LIMIT, ROOM, 0)])[0]
        wants(f"the marker with too many nodes is the one of number {number}", (reply.status, reply.place()) == (REFUSED, (number, 0, 0, 0)))
    reply = made(program, [("marker", [b"os_name =="], LIMIT, ROOM, 0, 0)])[0]
    wants("a text at fault is told before a bound", reply.status == REFUSED and not reply.text().startswith(b"more than"), reply)
    reply = made(program, [("marker", [b"os_name == \"a'\""], LIMIT, ROOM, NO_BOUND, 0)])[0]
    wants("a marker without a normal text is told before its clauses", reply.text() == b"no normal text: single quote", reply)


def list_bounds(program):
    """A bound on a list that is exactly reached answers, and each smaller one is refused, by its number."""
    for call, texts, kinds, status in BOUNDED_LISTS:
        texts = [it.encode() for it in texts]
        whole = made(program, [(call, texts)])[0]
        wants(f"{call} answers without bounds", whole.status == status, whole)
        for what in kinds:
            numbers = [[it if kind == what else NO_BOUND for kind in ("nodes", "clauses", "cases")] for it in range(64)]
            replies = made(program, [(call, texts, LIMIT, 64 + whole.length, *it) for it in numbers])
            first = next((number for number, it in enumerate(replies) if it.status == status), 0)
            answers = all((it.status, it.text()) == (status, whole.text()) for it in replies[first:])
            wants(f"{call} answers from a number of {what} on", 0 < first < 64 and answers, replies[first])
            refused = all(it.status == REFUSED and f"more than {number} {what}" in it.text().decode() and it.place()[2:] == (0, 0)
                          for number, it in enumerate(replies[:first]))
            wants(f"{call} is refused with fewer {what}", refused, replies[:first])
    for call, texts, most, place in (
            ("same", ["b", LINES], [0], (2, 2, 0, 0)), ("normal", [LINES], [NO_BOUND, 0], (1, 2, 0, 0)),
            ("covers", ["b", LINES], [0], (2, 2, 0, 0)), ("covers", [OTHERS, LINES], [NO_BOUND, 0], (0, 0, 0, 0)),
            ("same", [LINES, OTHERS], [NO_BOUND, 0], (0, 0, 0, 0)), ("conflicts", [LINES], [NO_BOUND, NO_BOUND, 0], (1, 0, 0, 0))):
        reply = made(program, [(call, [it.encode() for it in texts], LIMIT, ROOM, *most)])[0]
        wants(f"{call} beyond a bound has the place {place}", (reply.status, reply.place()) == (REFUSED, place), reply)


def hostile(program):
    """Short texts that would take all memory and time are refused. (bench/bounds.py says how soon)"""
    for call, texts, writes in BOUNDED:
        grown = [(NODES_GROW, b"more than 1000000 nodes")] + [(CLAUSES_GROW, b"more than 100000 clauses")] * (writes and call != "negated")
        for text, wanted in grown:
            reply = made(program, [(call, [text.encode() if it == SOME else it.encode() for it in texts], LIMIT, ROOM, *USUAL)])[0]
            wants(f"{call} with {wanted.decode()}", (reply.status, reply.text()) == (REFUSED, wanted) and reply.grown == 0, reply)


def marker_keys(program):
    """Keys are the same of markers of one meaning, and of no others."""
    texts = [text for line in ALIKE for text in line]
    replies = made(program, [("marker key", [it.encode()]) for it in texts])
    keys, found = [it.text() for it in replies], {}
    for text, key in zip(texts, keys):
        found.setdefault(key, []).append(text)
    wants("each marker has a key", all(it.status == ANSWERED for it in replies))
    wants("keys of markers", [*found.values()] == ALIKE, [it for it in found.values() if it not in ALIKE])


def orders(program):
    texts = [it.encode() for it in RISING]
    pairs = [(a, b) for a in range(len(texts)) for b in range(len(texts))]
    replies = made(program, [("order", [texts[a], texts[b]]) for a, b in pairs])
    sign = lambda a, b: b"<" if a < b else b">" if a > b else b"="
    wants("the order of versions", all((it.status, it.text()) == (ANSWERED, sign(a, b)) for it, (a, b) in zip(replies, pairs)))
    keys = [it.room[: it.number] for it in made(program, [("key", [it], LIMIT, 256) for it in texts])]
    wants("the order of keys", keys == sorted(keys) and len({*keys}) == len(keys))
    for a, b in SAME:
        keys_of = (("key", [it.encode()], LIMIT, 64) for it in (a, b))
        reply, *keyed = made(program, [("order", [a.encode(), b.encode()]), *keys_of])
        wants(f"{a} equals {b}", (reply.status, reply.text()) == (ANSWERED, b"=") and keyed[0].room == keyed[1].room)
    refused = made(program, [("order", [b"1", b"x"]), ("order", [b"\xff", b"x"]), ("order", [b"1..0", b"1"])])
    said = [(REFUSED, (2, 0, 0, 1)), (REFUSED, (1, 0, 0, 0)), (REFUSED, (1, 0, 0, 4))]
    wants("the order of no version", [(it.status, it.place()) for it in refused] == said, refused)
    wants("a reason why there is no order", all(it.length > 0 for it in refused))
    without = made(program, [("key", [b"x"], LIMIT, 8)])[0]
    wants("the key of no version", without.number == -2 and without.room == bytes([WAS] * 8))


def batches(program):
    for listed, versions, wanted in TAKEN:
        for end in ("", "\n"):
            if end or versions[-1]:
                reply = made(program, [("take", [listed.encode(), ("\n".join(versions) + end).encode()])])[0]
                wants(f"{listed!r} of {versions}", (reply.status, reply.text().decode()) == (ANSWERED, wanted), reply)
    reply = made(program, [("take", [b">=1,=2", b"1\n"])])[0]
    wants("a list that is none takes nothing", (reply.status, reply.place()) == (REFUSED, (1, 0, 4, 2)), reply)
    reply = made(program, [("take", [b">=1", b"2\n\xff\n"])])[0]
    wants("a line that is no text", (reply.status, reply.text()) == (ANSWERED, b"1?"), reply)
    where = environment()
    for markers, extras in HELD:
        reply = made(program, [("hold", [markers.encode(), where, extras.encode()])])[0]
        wants(f"markers that hold: {markers!r}", (reply.status, reply.text()) == (ANSWERED, b"1010?1?"), reply)
    refused = [(where, b"-\n", 3, b"extra - is no name"),
               (b"{}", b"", 2, b"environment: environment 1: member implementation_name is missing or no text"),
               (b"[]", b"", 2, b"environment: not an object"), (b"\xff", b"", 2, b"environment: not UTF-8 at byte 0"),
               (b"{", b"", 2, b"environment: not JSON"), (where, b"\xff", 3, b"not UTF-8 at byte 0")]
    for it, extras, number, message in refused:
        reply = made(program, [("hold", [b"os_name == 'a'", it, extras])])[0]
        wants(f"{message.decode()}", (reply.status, reply.input, reply.text()) == (REFUSED, number, message), reply)


def said_of(run, call):
    """What the library says where a run is refused."""
    said = run["stderr"].encode("utf-8", "surrogateescape").removeprefix(b"reqs: ").removesuffix(b"\n")
    path, colon, rest = said.partition(b": ")
    if colon and path == b"assumption":
        return rest.split(b"\n")[1]
    names = NAMES[call.removesuffix(" where")]
    return names[PATHS[path.decode()]].encode() + colon + rest if colon and path.decode() in PATHS else said


def runs(program):
    """The stored runs: their answers, and what is said of refusals but for the inputs' names."""
    stored = [*of_runs()]
    for lot in in_lots(stored):
        for (run, call), reply in zip(lot, made(program, [it for _, it in lot])):
            text = run["stdout"].encode("utf-8", "surrogateescape") if reply.status != REFUSED else said_of(run, call[0])
            wants(f"run {run['name']}: {call[0]}", (reply.status, reply.text()) == (run["status"], text), reply)


# An assumption that always holds, as each of no meaningful comparison, and one that never does; and what is answered then.
ALWAYS, NEVER = b"'x' == 'y'", b"os_name == 'a' and os_name == 'b'"
NOWHERE = {"same": b"yes\n", "covers": b"yes\n", "conflicts": b""}


def assumed(program):
    """The stored runs on lists: what always holds changes nothing, and where nothing holds nothing is required."""
    stored = [(run, call) for run, call in of_runs() if call[0] in NOWHERE]
    for lot in in_lots(stored):
        plain = made(program, [call for _, call in lot])
        where, nowhere = (made(program, [(f"{call} where", [*texts, marker], *more) for _, (call, texts, *more) in lot])
                          for marker in (ALWAYS, NEVER))
        for (run, (call, *_)), one, other, none in zip(lot, plain, where, nowhere):
            told = other.status, other.place(), other.text()
            wants(f"run {run['name']}: {call} where all holds", told == (one.status, one.place(), one.text()), other)
            is_so = none.status == REFUSED or (none.status, none.text()) == (ANSWERED, NOWHERE[call])
            wants(f"run {run['name']}: {call} where nothing holds", is_so, none)


# A marker that holds in each real interpreter, and what is assumed: a marker, specifiers, whether the interpreter is real, and the text.
REAL = (b"os_name == 'nt' and sys_platform == 'win32' and platform_system == 'Windows'"
        b" or os_name == 'posix' and sys_platform == 'linux' and platform_system == 'Linux'"
        b" or os_name == 'posix' and sys_platform == 'darwin' and platform_system == 'Darwin'"
        b" or os_name != 'nt' and sys_platform != 'win32' and sys_platform != 'linux' and sys_platform != 'darwin'"
        b" and platform_system != 'Windows' and platform_system != 'Linux' and platform_system != 'Darwin'")
ASSUMED = [
    (b"", b"", 0, b""), (b"os_name=='nt'", b"", 0, b"os_name=='nt'"), (b"", b">=3.9", 0, b"python_full_version >= '3.9'"), (b"", b"", 1, REAL),
    (b"", b"< 3.13, >= 3.9", 0, b"(python_full_version >= '3.9') and (python_full_version < '3.13')"),
    (b"extra == 'a' or extra == 'b'", b"==3.*", 2, b"(extra == 'a' or extra == 'b') and (python_full_version == '3.*') and (" + REAL + b")"),
]


def assumptions(program):
    """The text of what is assumed: what is refused of a marker before what is of specifiers."""
    calls = [("assumption", [marker, python], real, ROOM) for marker, python, real, _ in ASSUMED]
    for (marker, python, real, text), reply in zip(ASSUMED, made(program, calls)):
        wants(f"what is assumed by {marker!r}, {python!r} and {real}", (reply.status, reply.text()) == (ANSWERED, text), reply)
    refused = [([b"os_name", b"3.9"], 1, 7), ([b"", b">=3.9,3"], 2, 6), ([b"\xff", b"\xff"], 1, 0), ([b"", b"\xff"], 2, 0)]
    for (texts, argument, start), reply in zip(refused, made(program, [("assumption", texts) for texts, *_ in refused])):
        wants(f"no assumption: {texts!r}", (reply.status, reply.input, reply.start) == (REFUSED, argument, start), reply)


def runs_as_json(program):
    """The stored runs: their calls for JSON end as those for text, and what is answered tells the text."""
    for lot in in_lots([*of_runs()]):
        texts, replies = (made(program, [(call + kind, *rest) for _, (call, *rest) in lot]) for kind in ("", " json"))
        for (run, (call, *_)), text, reply in zip(lot, texts, replies):
            told = reply.status, reply.place(), text_told(call, reply)
            wants(f"run {run['name']}: {call} as JSON", told == (text.status, text.place(), text.text()), reply)


def kinds():
    """One call of each kind, as it answers and as it is refused."""
    lists = [read("examples", "first", it) for it in ("requirements.txt", "environment.json", "candidates.txt")]
    where, many = environment(), read("examples", "first", "environments.json")
    return [
        ("check", [*lists, b"test\n"]), ("check", [b"a\n--b\n", *lists[1:], b""]), ("matrix", [lists[0], many, lists[2], b""]),
        ("same", [b"a\n", b"b>1; os_name == 'nt'\n"]), ("covers", [b"a\n", b"b>1; os_name == 'nt'\n"]),
        ("conflicts", [b"a<1\na>2\n"]),
        ("normal", [b"A >= 1.0 ; os_name=='nt'\n"]), ("normal", [b"a @ b"]),
        ("check json", [*lists, b"test\n"]), ("check json", [b"a\n--b\n", *lists[1:], b""]),
        ("matrix json", [lists[0], many, lists[2], b""]), ("same json", [b"a\n", b"b>1; os_name == 'nt'\n"]),
        ("covers json", [b"a\n", b"b>1; os_name == 'nt'\n"]),
        ("conflicts json", [b"a<1\na>2\n"]), ("normal json", [b"A >= 1.0 ; os_name=='nt'\n"]), ("normal json", [b"a @ b"]),
        ("same where", [b"a\n", b"b>1\n", b"os_name == 'nt'"]), ("same where", [b"a\n", b"b\n", b"os_name"]),
        ("covers where", [b"a\n", b"b>1; os_name == 'nt'\n", b"extra == 'e'"]),
        ("conflicts where", [b"a<1\na>2\n", b"os_name == 'nt'"]), ("conflicts where", [b"a\n", b"os_name =="]),
        ("same where json", [b"a\n", b"b>1\n", b"os_name == 'nt'"]), ("covers where json", [b"a\n", b"b>1\n", b"extra == 'e'"]),
        ("conflicts where json", [b"a<1\na>2\n", b"os_name == 'nt'"]),
        ("version", [b"1.0RC1.post2.dev3+a.b"]), ("version", [b"1.0 x"]), ("key", [b"1!70000.2.3rc1+ubuntu.1"]),
        ("specifiers", [b">=1.0,<2,!=1.5.*"]), ("specifiers", [b">=1.0,2"]), ("take", [b">=1.0,===1.5", b"1.5\n2\nx\n"]),
        ("requirement", [b"a[b,c] >= 1; os_name == 'nt' or extra == 'e'"]),
        ("requirement", [b"a @ file:///b ; os_name =="]), ("marker", [b"os_name == 'nt' or python_version < '3.8'"]),
        ("checked", [b"os_name == 'nt' or extra == 'e'"]), ("checked", [b"os_name =="]),
        ("marker", [b"os_name =="]), ("marker", [b"os_name == 'a' and os_name == 'b'"]),
        ("marker key", [b"os_name == 'nt' or extra == 'e'"]),
        ("truth", [b"os_name == 'nt'"]), ("truth", [b"os_name"]), ("disjoint", [b"os_name == 'a' or extra == 'e'", b"os_name == 'b'"]),
        ("implies", [b"os_name == 'a'", b"os_name == 'a' or extra == 'e'"]), ("implies", [b"os_name == 'a'", b"os_name"]),
        ("negated", [b"os_name == 'a' or python_version < '3.8'"]),
        ("python", [b"os_name == 'a' or python_version < '3.8'", b"3.7", b"3.9"]), ("python", [b"os_name == 'a'", b"3.7", b"x"]),
        ("extras", [b"extra == 'a' and extra == 'b'", b"a\nc\n"]), ("extras", [b"os_name == 'a'", b"a\n-\n"]),
        ("ranges disjoint", [b">=1,!=1.5.*", b"~=1.5.2"]), ("subset", [b"~=1.2", b">=1.2,<2"]), ("subset", [b"~=1.2", b">=1,2"]),
        ("empty", [b">=1,!=1.5.*,<2"]), ("empty", [AT_END.encode()]),
        ("hold", [b"os_name == 'posix'\nx\n", where, b"a\n"]), ("order", [b"1.0.0.0.1", b"1.0.0.0.2+a"]),
        ("assumption", [b"os_name == 'nt'", b">=3.9,<3.13"]), ("assumption", [b"os_name", b"3.9"]), ("assumption", [b"", b">=3,4"]),
    ]


def rooms(program):
    """Room of each size up to the whole text's and one more."""
    for call, texts in kinds():
        whole = made(program, [(call, texts)])[0]
        length = whole.number if call == "key" else whole.length
        text = whole.room[:length]
        replies = [it for lot in in_lots([(call, texts, LIMIT, room) for room in range(length + 2)], 400) for it in made(program, lot)]
        is_so = all(it.room == (text + bytes([WAS]) * 2)[:room] and not it.behind and it.grown == 0
                    and (it.status, it.number, it.place()) == (whole.status, whole.number, whole.place())
                    for room, it in enumerate(replies))
        wants(f"{call} of {texts[0]!r} with each room up to {length + 1}", is_so)


def refusals(program, refuse):
    """Each request for memory refused, alone and with all behind it."""
    def refused(call, first, last):
        told, tells = os.pipe()
        environment = {**AT_ONCE, "LD_PRELOAD": refuse, "REFUSE_FIRST": str(first), "REFUSE_LAST": str(last), "REFUSE_TOLD": str(tells)}
        ran = subprocess.run([program], input=request(*call, LIMIT, 4096), capture_output=True, env=environment, pass_fds=[tells])
        os.close(tells)
        with os.fdopen(told, "rb") as pipe:
            was = pipe.read()
        reply = Reply(struct.unpack_from("<8Q", ran.stdout), ran.stdout[64:]) if ran.returncode == 0 else None
        return reply, bool(was)

    def tried(call):
        whole = made(program, [(*call, LIMIT, 4096)])[0]
        no_memory = {"key": -3}.get(call[0])
        for first in range(1, MOST_REQUESTS):
            for last in (first, ALL):
                reply, was = refused(call, first, last)
                if reply is None or reply.behind or reply.grown:
                    return f"request {first}: {reply}"
                lacks = reply.number == no_memory if no_memory else (reply.status, reply.length, *reply.place()) == (MEMORY, 0, 0, 0, 0, 0)
                untouched = reply.room == bytes([WAS]) * 4096
                same = (reply.status, reply.number, reply.place(), reply.room) == (whole.status, whole.number, whole.place(), whole.room)
                if not (same or was and lacks and untouched):
                    return f"request {first}: {reply}"
            if not was:
                return None if first > 3 else "no request of the call was refused"
        return "requests without an end"

    with ThreadPoolExecutor(4) as pool:
        for call, fault in zip(kinds(), pool.map(tried, kinds())):
            wants(f"{call[0]} of {call[1][0]!r} with memory refused", fault is None, fault)


def exports(shared, static):
    """The header's functions are those that both libraries export, and they call nothing but the C library's for memory."""
    header = re.sub(r"/\*.*?\*/", "", read("include", "reqs.h").decode(), flags=re.S)
    declared = {*re.findall(r"\b(reqs_\w+)\(", header)}
    lines = lambda *words: subprocess.check_output(["nm", *words], text=True).splitlines()
    names = lambda *words: {it.split()[-1].partition("@")[0] for it in lines(*words) if it.split()}
    wants("libreqs.so exports what the header declares", names("-D", "--defined-only", shared) == declared)
    exported = {it for it in names("-g", "--defined-only", static) if not it.endswith(":")}
    wants("libreqs.a exports what the header declares", exported == declared)
    called = names("-D", "--undefined-only", shared)
    kinds = [it.split()[-2:] for it in lines(static) if len(it.split()) > 1]
    # (of `nothing` just the address is used, where memory is refused)
    variables = {name for kind, name in kinds if kind in "bBdDsSC"}
    wants("libreqs.a has no variables, by which calls or processes could be in each other's way", variables <= {"nothing"}, variables)
    told = subprocess.check_output(["objdump", "-p", shared], text=True)
    wants("libreqs.so is named by the number of its interface", re.search(r"SONAME +(\S+)", told)[1] == f"libreqs.so.{INTERFACE}", told)
    wants("libreqs.so is no symbolic link, at which a second run of the gate would end", not os.path.islink(shared))
    told = subprocess.check_output(["objdump", "-d", "--no-show-raw-insn", shared], text=True)
    used = {it.split("\t")[1].split()[0] for it in told.splitlines() if len(it.split("\t")) > 1 and it.split("\t")[1].strip()}
    wants("libreqs.so has the instructions of each x86-64 processor alone", "mov" in used and not used & BEYOND, used & BEYOND)
    wants("libreqs.so calls nothing else", called <= {"malloc", "realloc", "free", "memcpy", "memmove", "memset", "memcmp"}, called)


def forks(program):
    """Calls in the children of a process with threads."""
    for name, settings in ALLOCATORS.items():
        ran = subprocess.run([program, FORKS], capture_output=True, text=True, env={**os.environ, **settings})
        wants(f"forks of a process with threads, with {name}", ran.returncode == 0, f"status {ran.returncode} {ran.stdout}")


def blocks(page):
    """The indented blocks of a page."""
    found, block = [], []
    for line in [*page.splitlines(), "."]:
        if line.startswith("    ") or block and not line:
            block.append(line[4:])
        elif block:
            found.append("\n".join(block).rstrip("\n") + "\n")
            block = []
    return found


def documented():
    """The program of docs/C.md, compiled and run by the commands there."""
    found = blocks(read("docs", "C.md").decode())
    programs = [it for it in found if it.startswith("#include")]
    sessions = [it for it in found if it.startswith("$ cc ")]
    wants("docs/C.md has a program, and commands for both libraries", (len(programs), len(sessions)) == (1, 2))
    for session in sessions:
        with tempfile.TemporaryDirectory() as room:
            for name in ("include", "crates"):
                os.symlink(os.path.join(TOP, name), os.path.join(room, name))
            with open(os.path.join(room, "program.c"), "w") as file:
                file.writelines(programs)
            for command, wanted in re.findall(r"^\$ (.*)\n((?:(?!\$ ).*\n)*)", session, flags=re.M):
                ran = subprocess.run(command, shell=True, cwd=room, capture_output=True, text=True)
                is_so = (ran.returncode, ran.stdout, ran.stderr) == (0, wanted, "")
                wants(f"docs/C.md: {command}", is_so, ran.stdout + ran.stderr)


def main(words):
    shared, static, deep, forking, refuse, libraries = words
    exports(*(os.path.join(libraries, it) for it in ("libreqs.so", "libreqs.a")))
    for program in (shared, static):
        answers(program)
        meanings(program)
        checked(program)
        bounds(program)
        list_bounds(program)
    hostile(shared)
    orders(shared)
    marker_keys(shared)
    batches(shared)
    runs(shared)
    runs_as_json(shared)
    assumed(shared)
    assumptions(shared)
    rooms(shared)
    documented()
    refusals(shared, refuse)
    ran = subprocess.run([deep, *DEEP], capture_output=True, text=True)
    wants("deep texts and many threads", ran.returncode == 0, f"status {ran.returncode} {ran.stdout}")
    forks(forking)
    wants("each odd input of tests/c/corpus.jsonl", *fuzz.ran(os.path.join(libraries, "libreqs.a"), seconds=0))
    print(f"c: {passed} passed, {len(failed)} failed")
    return 1 if failed else 0


if __name__ == "__main__":
    sys.exit(main(sys.argv[1:]))
