"""The extension: each of its calls answers as ctypes does, on the same texts, or fails with the same error.

Both ways are tried in a process of their own, since a process has one. FOWLYORE_RANDOM is ten times as many texts as are tried,
FOWLYORE_SEED what they come from, and FOWLYORE_ROUNDS how often all calls are made to see that memory doesn't grow. Without the
extension only what needs none is tested. tests/extension.sh runs this under a compiler's checks of addresses.
"""

import copy
import gc
import inspect
import json
import os
import pickle
import random
import subprocess
import sys
import tempfile
import threading
import unittest
import weakref

import fowlyore
from fowlyore import Marker, Requirement, Specifier, SpecifierSet, Version, _native

COUNT = int(os.environ.get("FOWLYORE_RANDOM", "20000")) // 10
SEED = os.environ.get("FOWLYORE_SEED", "a seed")
PYTHON = os.path.dirname(os.path.dirname(os.path.abspath(__file__)))
HERE = _native.how() == "extension"
NONE = "the extension is not there: python/extension/build.py makes it, and FOWLYORE_EXTENSION names it"
ROUNDS = int(os.environ.get("FOWLYORE_ROUNDS", "2000"))
CHECKED = "libasan" in os.environ.get("LD_PRELOAD", "")

VERSIONS = """1 1.0 1.0.0 2.31.0 1.0a1 1.0RC.1 1.0.post1 1.0-1 1.0.dev3 1!2.3.post4+ubuntu.1 v1.2 0 2024.1.0.dev3
18446744073709551615 18446744073709551616 1.0b2.post3.dev4+a.1 1.0+A_1 1.*""".split()
SIGNS = ["==", "!=", "<", "<=", ">", ">=", "~=", "===", "=", ""]
KEYS = ["os_name", "python_version", "sys_platform", "extra", "os.name", "platform_version", "implementation_version"]
NAMES = ["foo", "Foo_Bar", "a.b-c", "x", "-x", ""]
ENDS = ["", "", "", " ", "\t", "\n", "\r\n", "\x0b", "\x1c", "\u00a0", "\u2028"]
PIECES = [*"0123456789.,;:!=<>~()[]@ \t\n\r\x0b\x0c\x1c\x00'\"+-_*vaz", "\u00e9", "\uff11", "\u0665", "\ud800", "\U0001f40d", "rc", " and "]
PARTS = ["epoch", "release", "pre", "post", "dev", "local", "public", "base_version", "is_prerelease", "is_postrelease",
         "is_devrelease", "major", "minor", "micro", "_key", "_given"]  # fmt: skip


class Texts(random.Random):
    """Random texts: valid ones, changed ones, long ones."""

    def text(self, make):
        text = make() if self.random() < 0.7 else self.choice(ENDS) + make() + self.choice(ENDS)
        for _ in range(self.choice([0] * 9 + [1, 1, 2])):
            at = self.randrange(len(text) + 1)
            text = text[:at] + self.choice(PIECES) + text[at + self.choice([0, 0, 1]) :]
        return text + self.choice(["9", ".1", " "]) * self.choice([200, 300, 5000, 9000]) if self.random() < 0.02 else text

    def version(self):
        if self.random() < 0.5:
            return self.choice(VERSIONS)
        tail = self.choice(["", "", "a1", "rc2", ".post3", ".dev4", "+x.1", "-2"])
        return ".".join(str(self.randrange(30)) for _ in range(self.randrange(1, 5))) + tail

    def specifiers(self):
        blank = self.choice(["", "", " "])
        made = [self.choice(SIGNS[:8] * 4 + SIGNS) + blank + self.version() + self.choice(["", "", "", ".*"])]
        made += [self.choice(SIGNS[:8] * 4 + SIGNS) + self.version()] * self.choice([0, 1])
        return self.choice([",", ",", " , ", ",,"]).join(made)

    def comparison(self):
        value = self.choice(["'nt'", "'3.8'", '"x"', "'it'", "'3.8.*'", "''", "os_name"])
        return f"{self.choice(KEYS)} {self.choice(SIGNS + ['in', 'not in'])} {value}"

    def marker(self):
        made = self.choice([" and ", " or "]).join(self.comparison() for _ in range(self.choice([1, 1, 2, 3])))
        return f"({made})" if self.random() < 0.2 else made

    def requirement(self):
        front = self.choice(NAMES) + self.choice(["", "", "[a]", "[b, A]", "[]"])
        return front + self.choice([self.specifiers(), "", " @ https://e.org/x"]) + self.choice(["", " ; " + self.marker()])


def outcome(call, *given):
    """What a call returns, or how it fails. Parts are told by their types too."""
    try:
        return repr(call(*given))
    except Exception as error:
        return f"{type(error).__name__}: {error} {vars(error) if isinstance(error, fowlyore.Refused) else ''}"


def versions_said(one, other):
    yield outcome(lambda: [repr(Version(one)), str(Version(one)), *(getattr(Version(one), it) for it in PARTS)])
    yield outcome(lambda: pickle.loads(pickle.dumps(Version(one))) == copy.copy(Version(one)) and Version(one).__reduce__()[1])

    def compared():
        left, right = Version(one), Version(other)
        signs = [left < right, left <= right, left == right, left != right, left >= right, left > right]
        return signs, hash(left) == hash(right), left == other, left.__lt__(3)

    yield outcome(compared)
    yield outcome(Version, other.encode("utf-8", "replace"))


def specifiers_said(one, other, versions):
    for kind in (Specifier, SpecifierSet):
        yield outcome(lambda: [repr(kind(one)), str(kind(one)), kind(one).prereleases, kind(one, True).contains(versions[0])])
        yield outcome(lambda: [kind(one) == kind(other), hash(kind(one)) == hash(kind(other)), kind(one) == other])
        yield outcome(lambda: [pickle.loads(pickle.dumps(kind(one))) == kind(one), kind(one, False).__reduce__()[1]])
        for it in versions:
            yield outcome(lambda: [kind(one).contains(it), it in kind(one), kind(one).contains(it, True), kind(one).contains(Version(it))])
        yield outcome(lambda: list(kind(one).filter(versions)))
        yield outcome(lambda: list(map(str, kind(one).filter([Version(versions[0]), *versions[1:]]))))
    yield outcome(lambda: [Specifier(one).operator, Specifier(one).version, Specifier(one)._canonical, Specifier(one)._bytes])
    yield outcome(lambda: [len(SpecifierSet(one)), sorted(map(repr, SpecifierSet(one))), SpecifierSet(one)._given])
    yield outcome(lambda: str(SpecifierSet(one) & SpecifierSet(other) & other))
    yield outcome(lambda: SpecifierSet(one).is_disjoint(other))


def markers_said(one, other, extra):
    yield outcome(lambda: [repr(Marker(one)), Marker(one).is_true(), Marker(one) == Marker(other), Marker(one).implies(Marker(other))])
    yield outcome(lambda: [str(Marker(one) & Marker(other)), str(Marker(one) | Marker(other))])
    yield outcome(lambda: Marker(one).evaluate())
    yield outcome(lambda: Marker(one).evaluate({"extra": extra, "os_name": other, "python_version": "3.8"}))
    yield outcome(lambda: str(~Marker(one)))


def requirements_said(one, other):
    def parts():
        it = Requirement(one)
        return it.name, sorted(it.extras), str(it.specifier), repr(it.marker), it.url, str(it), it == Requirement(other)

    yield outcome(parts)
    yield outcome(fowlyore.normal, one)
    yield outcome(lambda: bool(fowlyore.same(one, other)))
    yield outcome(lambda: [str(it) for it in fowlyore.check([one], candidates="foo 1.0\nx 2.31.0")])
    yield outcome(lambda: [str(it) for it in fowlyore.conflicts([one, other])])
    yield outcome(_native.encoded, one)


def all_said(count, seed):
    """What all calls answer on random texts, with the texts."""
    texts = Texts(seed)
    for _ in range(count):
        versions = [texts.text(texts.version) for _ in range(3)]
        specifiers, markers, lines = (
            [texts.text(make) for _ in range(2)] for make in (texts.specifiers, texts.marker, texts.requirement)
        )
        yield from ((versions, it) for it in versions_said(*versions[:2]))
        yield from (((specifiers, versions), it) for it in specifiers_said(*specifiers, versions))
        yield from (((markers, versions), it) for it in markers_said(*markers, versions[0]))
        yield from ((lines, it) for it in requirements_said(*lines))


def documents():
    """The first line of what is said of each public name of the classes."""
    for kind in (Version, Specifier, SpecifierSet, Marker, Requirement):
        names = [it for it in dir(kind) if not it.startswith("_")]
        arguments = [(it.name, it.default is it.empty or it.default) for it in inspect.signature(kind).parameters.values()]
        yield kind.__module__, kind.__qualname__, arguments, [(it, (getattr(kind, it).__doc__ or "").split("\n")[0]) for it in names]


def by(how, code, *words):
    """What a process writes that calls the library so."""
    environment = {**os.environ, "FOWLYORE_EXTENSION": how, "PYTHONHASHSEED": "1"}
    ran = subprocess.run([sys.executable, *code, *words], cwd=PYTHON, env=environment, stdout=subprocess.PIPE, stderr=subprocess.PIPE)
    return ran.returncode, ran.stdout.decode(), ran.stderr.decode()


def file_of_the_extension():
    return _native.extension.__spec__.origin


@unittest.skipUnless(HERE, NONE)
class Alike(unittest.TestCase):
    def test_all_calls(self):
        words = ["-m", "tests.test_extension", str(COUNT), SEED]
        ways = [by("no", words), by(file_of_the_extension(), words)]
        for status, _, said in ways:
            self.assertEqual((status, said), (0, ""))
        ctypes_says, extension_says = (text.split("\n") for _, text, _ in ways)
        self.assertEqual((ctypes_says.pop(0), extension_says.pop(0)), ("ctypes", "extension"))
        self.assertEqual(len(ctypes_says), len(extension_says))
        for left, right in zip(ctypes_says, extension_says):
            self.assertEqual(left, right)
        answered = sum(not json.loads(it)[1].split(" ")[0].endswith(":") for it in ctypes_says[5:-1])
        self.assertGreater(answered, len(ctypes_says) // 10)

    def test_each_call_of_the_library(self):
        """Those of which it has the address, with the number of texts that they take."""
        for name in ("_marker", "_check", "_matrix", "_markers_hold"):
            call = getattr(_native, name)
            with self.assertRaises(TypeError):
                call()
            with self.assertRaises(TypeError):
                call(*[3] * len(_native.DECLARED[f"reqs{name}"].argtypes))


@unittest.skipUnless(HERE, NONE)
class Objects(unittest.TestCase):
    def test_they_do_not_change(self):
        version = Version("1.0")
        for name in ("release", "_given", "_key", "new"):
            with self.assertRaises(AttributeError):
                setattr(version, name, 1)
        with self.assertRaises(TypeError):
            version.__init__("2.0")
        self.assertEqual(str(version), "1.0")

    def test_what_was_not_made(self):
        for kind in (Version, Specifier, SpecifierSet):
            empty = kind.__new__(kind)
            for ask in (str, hash, repr, lambda it: it == kind.__new__(kind), lambda it: it._bytes, lambda it: it.release):
                with self.assertRaises(AttributeError):
                    ask(empty)

    def test_classes_of_users(self):
        class Named(Version):
            def __init__(self, version, name):
                super().__init__(version)
                self.name = name

        named = Named("2.0", "a")
        self.assertEqual((named.name, named > Version("1"), Version("2") == named, hash(named)), ("a", True, True, hash(Version("2"))))
        self.assertTrue(SpecifierSet(">=2").contains(named) and list(Specifier("<3").filter([named])) == [named])

    def test_weak_references_and_cycles(self):
        values = [Version("1.0"), Specifier(">=1"), SpecifierSet(">=1")]
        found = [weakref.ref(it) for it in values]
        for it in values[1:]:
            it.prereleases = [it]
        del values, it
        gc.collect()
        self.assertEqual([it() for it in found], [None] * 3)

    def test_threads(self):
        versions = [Version(f"{it}.0rc{it}+a.{it}") for it in range(2000)]
        long = Version("1." + ".".join(["7"] * 9000))
        found = []

        def ask():
            found.append([(it.release, str(it), it.pre, hash(it), it < long) for it in versions] + [long.release, str(long)])

        threads = [threading.Thread(target=ask) for _ in range(8)]
        for it in threads:
            it.start()
        for it in threads:
            it.join()
        self.assertEqual(len(found), 8)
        self.assertTrue(all(it == found[0] for it in found))


def asked():
    """All kinds of calls once."""
    parts = [getattr(Version("1!2.0rc1.post2.dev3+x.4"), it) for it in PARTS]
    sets = SpecifierSet(">=1.0,<3") & SpecifierSet("!=2")
    found = [sets.contains(Version("1.5")), list(sets.filter(["1", "2", Version("2.5")])), sorted(map(str, sets)), len(sets), str(sets)]
    made = Requirement("foo[a]>=1 ; os_name == 'x'")
    refused = [outcome(Version, "1.x"), outcome(Specifier, "=1"), outcome(Marker, "os_name"), outcome(Requirement, "a=1")]
    return parts, found, str(made.specifier), made.marker.evaluate({"os_name": "x"}), refused


def resident():
    """The pages of memory that this process has for itself. (Those of files come and go as the system likes.)"""
    with open("/proc/self/statm") as file:
        _, whole, shared, *_ = map(int, file.read().split())
        return whole - shared


@unittest.skipUnless(HERE, NONE)
class Memory(unittest.TestCase):
    @unittest.skipIf(CHECKED or not os.path.exists("/proc/self/statm"), "there is no /proc, or what is given back is kept for checks")
    def test_it_does_not_grow(self):
        """Calls that keep memory keep it in each turn, and what the system does by itself is seen in one or another."""
        for _ in range(ROUNDS // 10 + 100):
            asked()
        for _ in range(3):
            pages, blocks = self.grown()
            if pages < 256:
                break
        self.assertLess(pages, 256)
        # (one block that is kept in each round would be as many)
        self.assertLess(blocks, ROUNDS // 2)

    def grown(self):
        """By how many pages and blocks the memory grows in a turn."""
        gc.collect()
        pages, blocks = resident(), sys.getallocatedblocks()
        for _ in range(ROUNDS):
            asked()
        gc.collect()
        return resident() - pages, sys.getallocatedblocks() - blocks

    def test_each_request_refused(self):
        """Requests of Python's for memory, each in turn, as of those that the extension makes."""
        try:
            import _testcapi
        except ImportError:
            self.skipTest("this interpreter has no _testcapi, which refuses memory")
        calls = [
            lambda: Version("1!2.0rc1+x.4").local, lambda: str(Version("1.0-RC.1")), lambda: Version("2.0") < Version("3"),
            lambda: Specifier(">=1.0").operator, lambda: SpecifierSet(">=1.0,<2")._given, lambda: Version("1.5").release,
            lambda: Version("1." + "7." * 100 + "1").base_version, lambda: hash(Version("1.2")) is None,
        ]  # fmt: skip
        for call in calls:
            wanted, met = call(), 0
            for first in range(60):
                _testcapi.set_nomemory(first, first + 1)
                try:
                    found = call()
                except MemoryError:
                    found = None
                finally:
                    _testcapi.remove_mem_hooks()
                met += found is None
                if found is not None:
                    self.assertEqual(found, wanted)
            self.assertGreater(met, 0)


class Loading(unittest.TestCase):
    CODE = ["-c", "from fowlyore import _native; print(_native.how())"]

    def test_ctypes_can_be_asked_for(self):
        self.assertEqual(by("no", self.CODE), (0, "ctypes\n", ""))

    def test_a_file_that_is_none(self):
        """Who names a file wants it, so nothing else is taken for it."""
        with tempfile.NamedTemporaryFile(suffix=".so") as file:
            for name in (file.name, "/no/such/file.so"):
                status, _, said = by(name, self.CODE)
                self.assertEqual((status, "ImportError: " in said), (1, True), said)

    def test_a_file_of_source(self):
        """It is no extension, and isn't run."""
        with tempfile.NamedTemporaryFile("w", suffix=".py") as file:
            file.write("print('run')\n" * 10)
            file.flush()
            status, out, said = by(file.name, self.CODE)
            self.assertEqual((status, out, "ImportError: " in said), (1, "", True), said)

    @unittest.skipUnless(HERE, NONE)
    def test_what_is_said_of_it(self):
        self.assertEqual(by(file_of_the_extension(), self.CODE), (0, "extension\n", ""))
        self.assertEqual(_native.extension.__name__, "fowlyore._extension")


if __name__ == "__main__":
    print(_native.how())
    for each in documents():
        print(json.dumps(each))
    for each in all_said(int(sys.argv[1]), sys.argv[2]):
        print(json.dumps(each))
