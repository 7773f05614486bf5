"""Want of memory: each request of the library's is refused in turn, in a process that goes on afterwards.

A call that meets a refusal raises MemoryError, or answers all the same where it can do without. Then the same values are asked
again, and so is another call, and both answer as with ample memory. tests/refuse.c refuses the requests; a C compiler makes a
library of it, which is preloaded.
"""

import ctypes
import os
import pathlib
import re
import shutil
import subprocess
import sys
import tempfile
import unittest

import fowlyore
from fowlyore import Marker, Requirement, SpecifierSet, Version, _native, markers
from fowlyore.explanations import explain

PYTHON = pathlib.Path(__file__).resolve().parents[1]
REFUSE = PYTHON.parent / "tests" / "refuse.c"
# Every request after the first that is refused, and more than any call here makes.
ALL, MOST_REQUESTS = 2**62, 5000
USUAL = {"implementation_version": "3.11.4", "python_full_version": "3.11.4", "python_version": "3.11"}
NAMES = ("implementation_name", "os_name", "platform_machine", "platform_python_implementation", "platform_release",
         "platform_system", "platform_version", "sys_platform")  # fmt: skip
ENVIRONMENT = {**USUAL, **dict.fromkeys(NAMES, "x")}
LINES = ["foo[b,a]>=1", "foo[c]<2", "bar ; os_name == 'nt'"]
LONG = "1." + ".".join(["7"] * 4000)


def shown(values):
    return [str(it) for it in values]


def refused(text):
    """The message of a list that is refused."""
    try:
        return fowlyore.normal(text)
    except fowlyore.InvalidInput as error:
        return str(error).partition("\n")[0]


# What is made with ample memory, what is asked of it while memory is refused, and the answer.
CALLS = {
    "check": (lambda: LINES, lambda it: shown(fowlyore.check(it, ENVIRONMENT, {"foo": ["1.5", "2.0"]})), ["foo[a,b,c] 1.5"]),
    "matrix": (lambda: LINES, lambda it: [shown(of) for of in fowlyore.matrix(it, [ENVIRONMENT] * 2, {"foo": "1.5"})],
               [["foo[a,b,c] 1.5"]] * 2),
    "same": (lambda: "foo==1.*", lambda it: str(fowlyore.same(it, "foo==1.0.*")), "no\nfoo\nall environments"),
    "covers": (lambda: "foo==1", lambda it: str(fowlyore.covers(it, "foo>=1\nfoo>1")), "no\nfoo\nall environments\n1,2"),
    "conflicts": (lambda: ["foo>=2", "foo<1 ; os_name == 'a'"], lambda it: shown(fowlyore.conflicts(it)), ["foo 1,2"]),
    "normal": (lambda: 'Foo_Bar [b , a] < 2.0 , >= 1.16 ; python_version >= "3.8"', fowlyore.normal,
               ["foo-bar[b,a]>=1.16,<2.0 ; python_full_version >= '3.8'"]),
    "a list that is refused": (lambda: "foo\nbar ; os.name == 'a'\n", refused, "requirements: line 2: deprecated key"),
    "reading a version": (lambda: "1.0-RC.1", lambda it: Version(it) < Version("1.0"), True),
    "printing a version": (lambda: Version("1.0-RC.1"), str, "1.0rc1"),
    "reading a long version": (lambda: LONG, lambda it: Version(it) < Version(f"{it}.1"), True),
    "reading specifiers": (lambda: "<2, >=1.0", lambda it: sorted(shown(SpecifierSet(it))), ["<2", ">=1.0"]),
    "filtering versions": (lambda: SpecifierSet(">=1,!=2"), lambda it: list(it.filter(["0", "1", "2", "3"])), ["1", "3"]),
    "ranges": (lambda: SpecifierSet("~=1.2"), lambda it: (it.is_subset(">=1.2"), it.is_disjoint("<1"), it.is_empty()),
               (True, True, False)),
    "reading a marker": (lambda: "python_version >= '3.8' or extra == 'X'", lambda it: Marker(it).is_true(), False),
    "printing a marker": (lambda: Marker("'nt' == os_name or python_version < '3'"), str,
                          "python_full_version < '3' or os_name == 'nt'"),
    "comparing markers": (lambda: Marker("'nt' == os_name"), lambda it: it == Marker("os_name == 'nt'"), True),
    "evaluating a marker": (lambda: Marker("os_name == 'x' and python_version > '3.10'"), lambda it: evaluated(it), True),
    "reading a requirement": (lambda: "Foo[Bar]>=1 ; os_name == 'x'", lambda it: shown(Requirement(it).specifier), [">=1"]),
    "the marker of a requirement": (lambda: Requirement("foo ; os_name == 'x'"), lambda it: evaluated(it.marker), True),
    "explaining": (lambda: ["foo!=2", "foo!=1"], lambda it: shown(explain(it, ENVIRONMENT, {"foo": ["1", "2"]})),
                   ["2 is refused by line 1 (foo!=2)\n1 is refused by line 2 (foo!=1)"]),
}  # fmt: skip


def evaluated(marker):
    """Whether a marker holds, by a call of the library."""
    markers._kept_answers.clear()
    return marker.evaluate(ENVIRONMENT)


class Refuser:
    """Refuses requests of the library's for memory."""

    def __init__(self):
        self.library = ctypes.CDLL(os.environ["LD_PRELOAD"])
        self.library.refuse_within.argtypes = [ctypes.c_size_t, ctypes.c_size_t, ctypes.c_ulong, ctypes.c_ulong]
        self.library.refuse_seen.restype = ctypes.c_ulong
        with open("/proc/self/maps") as file:
            spans = re.findall(rf"^(\w+)-(\w+) (?:.*) {re.escape(os.path.realpath(_native.path()))}$", file.read(), re.M)
        self.span = min(int(it, 16) for it, _ in spans), max(int(it, 16) for _, it in spans)

    def asked(self, call, value, first, last):
        """What a call answers with these requests refused, and if it met one of them."""
        self.library.refuse_within(*self.span, first, last)
        try:
            answer = call(value)
        except MemoryError:
            answer = MemoryError
        met = self.library.refuse_seen() >= first
        self.library.refuse_within(*self.span, 0, 0)
        return answer, met


def tried(refuser, name):
    """How often a call raised MemoryError."""
    make, call, wanted = CALLS[name]
    raised = 0
    for first in range(1, MOST_REQUESTS):
        met = False
        for last in (first, ALL):
            value = make()
            answer, met = refuser.asked(call, value, first, last)
            raised += answer is MemoryError
            if not met and answer is MemoryError or answer not in (MemoryError, wanted):
                raise AssertionError(f"{name}: request {first} of the library refused, up to {last}: {answer!r}")
            if call(value) != wanted or str(Version("1.0-C")) != "1.0rc0":
                raise AssertionError(f"{name}: after request {first} was refused: {call(value)!r}")
        if not met:
            return raised
    raise AssertionError(f"{name}: requests without an end")


@unittest.skipUnless(REFUSE.exists() and shutil.which("cc") and sys.platform == "linux", "there is no tests/refuse.c, cc or Linux")
class Memory(unittest.TestCase):
    def test_each_call(self):
        with tempfile.TemporaryDirectory() as room:
            library = os.path.join(room, "refuse.so")
            flags = ["-O2", "-fno-builtin", "-shared", "-fPIC"]
            subprocess.run(["cc", *flags, "-o", library, str(REFUSE)], check=True)
            pipes = {"stdout": subprocess.PIPE, "stderr": subprocess.STDOUT}
            ran = subprocess.run(
                [sys.executable, "-m", "tests.test_memory"], cwd=PYTHON, env={**os.environ, "LD_PRELOAD": library}, **pipes
            )
        self.assertEqual((ran.returncode, ran.stdout.decode().split("\n")), (0, [*CALLS, ""]))


if __name__ == "__main__":
    with_refusals = Refuser()
    for each in CALLS:
        if tried(with_refusals, each) < 2:
            raise AssertionError(f"{each}: no request was refused")
        print(each)
