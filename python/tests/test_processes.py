"""Calls in forked children, forked while other threads of the parent are calling.

Each kind of fork is tried in a process of its own, which is ended where it hangs.
"""

import concurrent.futures
import faulthandler
import multiprocessing
import os
import pathlib
import signal
import subprocess
import sys
import threading
import traceback
import unittest

import fowlyore
from fowlyore import Marker, Requirement, SpecifierSet, Version
from fowlyore.explanations import explain

PYTHON = pathlib.Path(__file__).resolve().parents[1]
# How many children are forked, how many threads call meanwhile, and how many seconds a child and a whole process may take.
CHILDREN, THREADS, CHILD_SECONDS, SECONDS = 200, 4, 600, 3600
ENVIRONMENT = {**fowlyore.default_environment(), "os_name": "posix", "python_version": "3.11", "python_full_version": "3.11.4"}
NAMES = [f"package-{it}" for it in range(100, 200)]
VERSIONS = [f"{major}.{minor}" for major in range(20) for minor in range(20)]
LONG = "1." + ".".join(["7"] * 4000)


def check_of_many():
    lines = [f"{it}[x]>=1,!=3 ; os_name == 'posix'" for it in NAMES]
    rows = fowlyore.check(lines, ENVIRONMENT, {it: ["1", "2.0", "3.0"] for it in NAMES})
    return [str(it) for it in rows] == [f"{it}[x] 2.0" for it in NAMES]


def matrix_of_many():
    environments = [{**ENVIRONMENT, "os_name": it} for it in ("nt", "posix", "java")]
    answers = fowlyore.matrix("a>1 ; os_name == 'posix'\nb", environments, {"a": ["1", "2"], "b": "1"})
    return [" ".join(map(str, it)) for it in answers] == ["b 1", "a 2 b 1", "b 1"]


def comparisons_of_lists():
    alike = fowlyore.same("a>=1 ; os_name == 'nt'\nb", ["b", "A >= 1.0 ; 'nt' == os_name"])
    conflicts = fowlyore.conflicts(["a<1", "a>2 ; os_name == 'nt'"])
    return bool(alike) and [str(it) for it in conflicts] == ["a 1,2"] and fowlyore.normal("A [c,b] >= 1") == ["a[c,b]>=1"]


def explanations():
    said = [str(it) for it in explain(["a!=2", "a!=1"], ENVIRONMENT, {"a": ["1", "2"]})]
    return said == ["2 is refused by line 1 (a!=2)\n1 is refused by line 2 (a!=1)"]


def versions():
    """Short ones, one that a buffer is too short for, and what is none."""
    ordered = sorted(map(Version, ["1.0.post1", "1.0", "1.0-RC.1", "1.0.dev2", "1!0"]))
    long, longer = Version(LONG), Version(f"{LONG}.1")
    try:
        Version("1.x")
    except fowlyore.InvalidVersion as error:
        said = str(error)
    printed = [str(it) for it in ordered]
    return printed == ["1.0.dev2", "1.0rc1", "1.0", "1.0.post1", "1!0"] and long < longer and said.endswith("^^")


def specifiers():
    found = list(SpecifierSet(">=3.5,!=4.*,<18.3").filter(VERSIONS))
    majors = [it for it in range(3, 19) if it != 4]
    wanted = [f"{major}.{minor}" for major in majors for minor in range(20)]
    wanted = [it for it in wanted if (3, 5) <= tuple(map(int, it.split("."))) < (18, 3)]
    return found == wanted and "4.1" not in SpecifierSet("~=3.1")


def markers():
    marker = Marker("python_version >= '3.8' and (os_name == 'nt' or extra == 'test')")
    values = [marker.evaluate({**ENVIRONMENT, **it}) for it in ({}, {"os_name": "nt"}, {"extra": "Test"})]
    return values == [False, True, True] and Marker("'nt' == os_name") == Marker("os_name == 'nt'")


def requirements():
    """Their parts are computed when they are asked for."""
    required = Requirement("Foo[Bar]>=1,<2 ; python_version > '3.7' and os_name == 'posix' or sys_platform == 'win32'")
    parts = required.marker is not None and required.marker.evaluate(ENVIRONMENT), str(required.specifier), required.extras
    return parts == (True, "<2,>=1", {"Bar"})


ASKED = [check_of_many, matrix_of_many, comparisons_of_lists, explanations, versions, specifiers, markers, requirements]


def wrong_answers(number):
    """The names of the functions whose answers are wrong; the number is where they begin."""
    rotated = ASKED[number % len(ASKED) :] + ASKED[: number % len(ASKED)]
    return [it.__name__ for it in rotated if not it()]


class Callers:
    """Threads that make all the calls until it is left."""

    def __enter__(self):
        self.ended, self.wrong = threading.Event(), []
        self.threads = [threading.Thread(target=self.call, args=(it,)) for it in range(THREADS)]
        for it in self.threads:
            it.start()
        return self

    def call(self, number):
        try:
            while not self.ended.is_set():
                self.wrong += wrong_answers(number)
                # (a value that is computed once may be half computed at a fork)
                self.wrong += [it.__name__ for it in [requirements] * 20 if not it()]
        except Exception as error:
            self.wrong.append(repr(error))

    def __exit__(self, *raised):
        self.ended.set()
        for it in self.threads:
            it.join()
        if self.wrong and raised == (None, None, None):
            raise AssertionError(f"in the parent: {self.wrong}")


def limit_child():
    """Ends the process where it hangs, and has it say where."""
    faulthandler.register(signal.SIGALRM, chain=True)
    signal.alarm(CHILD_SECONDS)


def forked(number):
    """The number of a process that is forked, makes all the calls and ends with 0 where their answers are right."""
    child = os.fork()
    if child:
        return child
    status = 1
    try:
        limit_child()
        wrong = wrong_answers(number)
        print(*wrong, end="", file=sys.stderr, flush=True)
        status = 1 if wrong else 0
    except BaseException:
        traceback.print_exc()
        sys.stderr.flush()
    finally:
        os._exit(status)


def by_os():
    """Eight children at a time."""
    for first in range(0, CHILDREN, 8):
        children = [forked(it) for it in range(first, first + 8)]
        for it in children:
            status = os.waitpid(it, 0)[1]
            if status:
                raise AssertionError(f"a child ended with {status}")


def by_a_pool():
    """A child for each task, all but the first ones forked by a thread of the pool."""
    context = multiprocessing.get_context("fork")
    with context.Pool(4, limit_child, maxtasksperchild=1) as pool:
        wrong = pool.map_async(wrong_answers, range(CHILDREN), chunksize=1).get(SECONDS - CHILD_SECONDS)
    if any(wrong) or len(wrong) != CHILDREN:
        raise AssertionError(wrong)


def by_executors():
    context = multiprocessing.get_context("fork")
    for first in range(0, CHILDREN, 8):
        with concurrent.futures.ProcessPoolExecutor(4, context, limit_child) as executor:
            wrong = list(executor.map(wrong_answers, range(first, first + 8), timeout=2 * CHILD_SECONDS))
        if any(wrong) or len(wrong) != 8:
            raise AssertionError(wrong)


@unittest.skipUnless("fork" in multiprocessing.get_all_start_methods(), "there is no fork")
class Forks(unittest.TestCase):
    def end_well(self, name):
        words = [sys.executable, "-W", "ignore::DeprecationWarning", "-m", "tests.test_processes", name]
        pipes = {"stdout": subprocess.PIPE, "stderr": subprocess.STDOUT}
        with subprocess.Popen(words, cwd=PYTHON, start_new_session=True, **pipes) as process:
            try:
                said = process.communicate(timeout=SECONDS)[0].decode()
            except subprocess.TimeoutExpired:
                os.killpg(process.pid, signal.SIGKILL)
                self.fail(f"it hangs: {process.communicate()[0].decode()}")
        self.assertEqual((process.returncode, said), (0, ""))

    def test_forks(self):
        self.end_well("by_os")

    def test_pool(self):
        self.end_well("by_a_pool")

    def test_executor(self):
        self.end_well("by_executors")


if __name__ == "__main__":
    with Callers():
        globals()[sys.argv[1]]()
