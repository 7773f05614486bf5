"""Versions, by PEP 440."""

import copy
import enum
import itertools
import pickle
import sys
import threading
import unittest

from fowlyore import InvalidVersion, Requirement, Specifier, Version, _native, parse
from fowlyore.version import is_prerelease, normalize_pre

# In rising order (PEP 440, Summary of permitted suffixes and relative ordering).
RISING = (
    "0.dev0 0 1.dev0 1.0.dev456 1.0a1.dev1 1.0a1 1.0a2.dev456 1.0a12.dev456 1.0a12 1.0b1.dev456 1.0b2 1.0b2.post345.dev456 "
    "1.0b2.post345 1.0rc1.dev456 1.0rc1 1.0 1.0+abc.5 1.0+abc.7 1.0+5 1.0+5.0 1.0.post456.dev34 1.0.post456 1.0.1 1.1.dev1 "
    "1.10 2013.10 18446744073709551615 1!0.dev0 1!1.0"
).split()
# Texts of one version (PEP 440, Normalization).
SPELLINGS = [
    ["1.0", "v1.0", " 1.0\n", "1", "1.0.0", "01.00", "0!1"],
    ["1.1rc1", "1.1RC1", "1.1-rc-1", "1.1.c1", "1.1_preview_1", "1.1pre1", "1.1.0rc01"],
    ["1.2a0", "1.2alpha", "1.2.A"],
    ["1.2.post2", "1.2-2", "1.2.r2", "1.2-REV2", "1.2_post-2"],
    ["1.2.dev0", "1.2dev", "1.2-DEV"],
    ["1.0+ubuntu.1", "1.0+Ubuntu-1", "1.0+ubuntu_01"],
]
NO_VERSIONS = ["", "a", "1.0x", "1..0", "1.0+", "1.0+a+b", "1.0-", "1!", "french toast", "1.0.*", "1 .0", str(2**64)]


class Order(unittest.TestCase):
    def test_each_pair(self):
        versions = [Version(it) for it in RISING]
        for (left, one), (right, other) in itertools.product(enumerate(versions), repeat=2):
            self.assertEqual((one < other, one <= other, one == other), (left < right, left <= right, left == right))
            self.assertEqual((one > other, one >= other, one != other), (left > right, left >= right, left != right))

    def test_spellings_are_equal(self):
        for texts in SPELLINGS:
            self.assertEqual(len({Version(it) for it in texts}), 1, texts)

    def test_other_types(self):
        version = Version("1.0")
        self.assertNotEqual(version, "1.0")
        self.assertNotEqual(version, None)
        for compare in ("__lt__", "__le__", "__gt__", "__ge__"):
            self.assertIs(getattr(version, compare)("1.0"), NotImplemented)


class Parts(unittest.TestCase):
    def test_all(self):
        version = Version("1!2.3.4rc5.post6.dev7+Ubuntu-8")
        self.assertEqual(str(version), "1!2.3.4rc5.post6.dev7+ubuntu.8")
        self.assertEqual(repr(version), "<Version('1!2.3.4rc5.post6.dev7+ubuntu.8')>")
        self.assertEqual((version.epoch, version.release, version.pre), (1, (2, 3, 4), ("rc", 5)))
        self.assertEqual((version.post, version.dev, version.local), (6, 7, "ubuntu.8"))
        self.assertEqual(version.public, "1!2.3.4rc5.post6.dev7")
        self.assertEqual(version.base_version, "1!2.3.4")
        self.assertEqual((version.major, version.minor, version.micro), (2, 3, 4))

    def test_none(self):
        version = parse("7")
        self.assertEqual((version.epoch, version.release, version.pre), (0, (7,), None))
        self.assertEqual((version.post, version.dev, version.local), (None, None, None))
        self.assertEqual((version.major, version.minor, version.micro), (7, 0, 0))
        self.assertEqual((version.is_prerelease, version.is_postrelease, version.is_devrelease), (False, False, False))

    def test_zeros_are_there(self):
        version = Version("1.0.post0")
        self.assertEqual((version.post, version.is_postrelease), (0, True))
        self.assertEqual(Version("1.0.dev").dev, 0)

    def test_prereleases(self):
        early = {"1.0a1", "1.0rc1.post2", "1.0.dev3", "1.0.post1.dev2", "1.0-preview"}
        final = {"1.0", "1.0.post1", "1.0-1", "1.0+a.dev1", "2!1"}
        for text in early | final:
            self.assertEqual(Version(text).is_prerelease, text in early, text)
            self.assertEqual(is_prerelease(text), text in early, text)

    def test_the_text_reads_back(self):
        for text in [*RISING, *itertools.chain(*SPELLINGS)]:
            self.assertEqual(Version(str(Version(text))), Version(text))


class Made(unittest.TestCase):
    """Of parts."""

    WHOLE = {"epoch": 1, "release": (2, 3), "pre": ("rc", 4), "post": 5, "dev": 6, "local": "x.7"}

    def test_from_parts(self):
        rows = [
            ({"release": (1, 2, 0)}, "1.2.0"),
            (self.WHOLE, "1!2.3rc4.post5.dev6+x.7"),
            ({"release": (1,), "pre": ("Beta", 0), "local": "A_b"}, "1b0+a.b"),
            ({"release": (0,), "post": 0, "dev": 0}, "0.post0.dev0"),
            ({"release": (2**64 - 1,)}, str(2**64 - 1)),
        ]
        for parts, text in rows:
            made = Version.from_parts(**parts)
            self.assertEqual((str(made), made), (text, Version(text)))
        with self.assertRaises(TypeError):
            Version.from_parts()

    def test_each_of_another_form(self):
        forms = {
            "epoch": [-1, "1", 1.5], "release": [(), [1], 1, (1, -1), ("1",), (1.5,), (2**64,)],
            "pre": [("post", 1), ("rc",), "rc1", ("rc", -1), (1, 1), ("rc", None), ("", 5), ("a.", 1)],
            "post": [-1, "1", 2**64], "dev": [-1, (1,)], "local": ["", "a ", " a", "a+b", "a\n", 1, "\u0660", "."],
        }  # fmt: skip
        # (which has no text)
        huge = 10**5000
        forms["epoch"] += [huge, -huge]
        forms["release"] += [(1, huge), [huge]]
        forms["pre"] += [("rc", huge)]
        forms["dev"] += [huge]
        forms["local"] += [huge]
        for part, values in forms.items():
            for value in values:
                with self.assertRaises(InvalidVersion, msg=part):
                    Version.from_parts(**{**self.WHOLE, part: value})
                with self.assertRaises(InvalidVersion, msg=part):
                    Version("3").__replace__(**{part: value})

    def test_numbers_that_print_as_others(self):
        """What counts of a member of an `Enum` that is a number is that number."""
        two = enum.Enum("numbers", {"two": 2}, type=int).two
        version = Version.from_parts(epoch=two, release=(1, two), pre=("b", two), post=two, dev=two)
        self.assertEqual(str(version), "2!1.2b2.post2.dev2")
        self.assertEqual(str(Version("3").__replace__(release=(two, True))), "2.1")

    def test_replaced(self):
        version = Version("1!2.3rc4.post5.dev6+x.7")
        rows = [
            ({"epoch": None}, "2.3rc4.post5.dev6+x.7"), ({"release": None}, "1!0rc4.post5.dev6+x.7"),
            ({"pre": None, "dev": None}, "1!2.3.post5+x.7"), ({"post": 0, "local": None}, "1!2.3rc4.post0.dev6"),
            ({"pre": ("ALPHA", 1)}, "1!2.3a1.post5.dev6+x.7"),
            ({"release": (9,), "local": "b-1"}, "1!9rc4.post5.dev6+b.1"),
        ]  # fmt: skip
        for parts, text in rows:
            self.assertEqual(str(version.__replace__(**parts)), text, parts)
        self.assertIs(version.__replace__(), version)
        self.assertIs(version.__replace__(**self.WHOLE), version)
        with self.assertRaises(TypeError):
            version.__replace__(minor=1)

    def test_replaced_by_what_is_equal(self):
        """A part that is none is refused, and a text of a class of its own counts by its characters."""
        class Odd(str):
            def __eq__(self, other):
                return True

            __hash__ = str.__hash__

        version = Version("2!1+a")
        for parts in ({"epoch": 2.0}, {"release": (1.0,)}, {"release": (1 + 0j,)}):
            with self.assertRaises(InvalidVersion, msg=parts):
                version.__replace__(**parts)
        self.assertEqual(str(version.__replace__(local=Odd("b"))), "2!1+b")

    def test_each_part_put_back(self):
        for text in RISING:
            version = Version(text)
            parts = {it: getattr(version, it) for it in self.WHOLE}
            self.assertEqual(str(Version.from_parts(**parts)), str(version))
            self.assertEqual(str(Version("7!8a9.post1.dev2+y").__replace__(**parts)), str(version))

    def test_words_of_prereleases(self):
        words = {"a": "a ALPHA alpha", "b": "b Beta", "rc": "c rc pre Preview", "post": "r rev post", "dev": "dev"}
        for normal, spellings in words.items():
            for it in spellings.split():
                self.assertEqual(normalize_pre(it), normal)
        for it in ("", "x", "1", "a1", "\u017f", "a.", "+a", "."):
            self.assertEqual(normalize_pre(it), it)

    @unittest.skipIf(sys.version_info < (3, 10), "match is of Python 3.10 and later")
    def test_matched(self):
        found = {"Version": Version}
        lines = ["match Version('v1.0-RC1'):", " case Version('1rc1'): found = 0"]
        exec("\n".join([*lines, " case Version('1.0rc1'): found = 1"]), found)
        self.assertEqual(found["found"], 1)


class Refusals(unittest.TestCase):
    def test_no_versions(self):
        for text in NO_VERSIONS:
            with self.assertRaises(InvalidVersion, msg=text) as found:
                Version(text)
            self.assertIn(f"Invalid version: {text!r}", str(found.exception))

    def test_other_types(self):
        for value in (None, 1, 1.0, b"1.0", Version("1.0"), ["1.0"]):
            with self.assertRaises(TypeError):
                Version(value)

    def test_no_text(self):
        for text in ("1.0\x00", "1.0\x002", "\ud800", "１.0", "1.0\u00a0"):
            with self.assertRaises(InvalidVersion, msg=repr(text)):
                Version(text)


class Values(unittest.TestCase):
    def test_copies(self):
        for text in RISING:
            version = Version(text)
            self.assertEqual(pickle.loads(pickle.dumps(version)), version)
            self.assertEqual(str(copy.deepcopy(version)), str(version))

    def test_texts_that_print_as_others(self):
        """What counts of a member of an `Enum` that is a text is that text, which is kept alone."""
        texts = enum.Enum("texts", {"version": "1.5", "local": "a"}, type=str)
        version = Version(texts.version)
        self.assertIs(type(version._given), str)
        self.assertEqual((str(version), str(pickle.loads(pickle.dumps(version)))), ("1.5", "1.5"))
        self.assertEqual(str(Version.from_parts(release=(1,), local=texts.local)), "1+a")

    def test_classes_that_print_something_else(self):
        """What counts of a version isn't what it prints."""
        class Own(Version):
            def __str__(self):
                return "v9"

        own = Own("1!2.3rc4.post5.dev6+x")
        parts = own.epoch, own.release, own.pre, own.post, own.dev, own.local, own.base_version, own.is_prerelease
        self.assertEqual(parts, (1, (2, 3), ("rc", 4), 5, 6, "x", "1!2.3", True))
        self.assertEqual((own.__replace__(local="y"), str(own)), (Version("1!2.3rc4.post5.dev6+y"), "v9"))

    def test_texts_with_bytes_of_their_own(self):
        """What counts of a text are its characters, and what is no text is none, whatever bytes it gives."""
        class Text(str):
            def encode(self, *_):
                return b"9"

        class Other:
            def encode(self, *_):
                return b"9"

        self.assertEqual(Version(Text("1")), Version("1"))
        self.assertEqual(str(Specifier(Text(">=1"))), ">=1")
        self.assertEqual(Requirement(Text("a ; os_name == 'nt'"))._parts.name, "a")
        for kind in (Version, Specifier, Requirement):
            with self.assertRaisesRegex(TypeError, "is read from a str, not from Other$"):
                kind(Other())

    def test_made_once(self):
        """So that no version keeps a part of another one, and none that is kept by its hash changes."""
        version = Version("1.0rc1")
        for _ in range(2):
            with self.assertRaisesRegex(TypeError, "^a version is made once$"):
                version.__init__("2.0")
            with self.assertRaises(InvalidVersion):
                version.__init__("x")
            found = str(version), version.release, version.is_prerelease, version == Version("1.0rc1"), hash(version)
            self.assertEqual(found, ("1.0rc1", (1, 0), True, True, hash(Version("1.0rc1"))))

    def test_longer_than_the_buffer(self):
        numbers = list(range(2 * _native.ROOM))
        text = ".".join(map(str, numbers))
        self.assertEqual(str(Version(text)), text)
        self.assertEqual(Version(text).release, tuple(numbers))
        self.assertLess(Version(text), Version(text + ".1"))

    def test_versions_made_while_one_is_made(self):
        """As by a signal's handler, between any two lines."""

        def trace(frame, event, argument):
            Version("9.9.9.dev9+other.9")
            return trace

        before = sys.gettrace()
        sys.settrace(trace)
        try:
            versions = [Version(it) for it in RISING]
            texts = [str(it) for it in versions]
        finally:
            sys.settrace(before)
        self.assertEqual([it._key for it in versions], [Version(it)._key for it in RISING])
        self.assertEqual(texts, [str(Version(it)) for it in RISING])

    def test_threads(self):
        wrong = []

        def compare(number):
            for it in range(500):
                version = Version(f"{number}.{it}")
                if str(version) != f"{number}.{it}" or version != Version(f"{number}.{it}.0"):
                    wrong.append(version)

        threads = [threading.Thread(target=compare, args=(it,)) for it in range(8)]
        for it in threads:
            it.start()
        for it in threads:
            it.join()
        self.assertEqual(wrong, [])
