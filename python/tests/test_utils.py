"""Names, texts of versions, and names of files, by PEP 503, PEP 427 and PEP 625."""

import enum
import sys
import unittest
import unittest.mock

from fowlyore import Refused, Version, _native, utils
from fowlyore.utils import (
    InvalidName, InvalidSdistFilename, InvalidWheelFilename, Tag, canonicalize_name, canonicalize_version,
    is_normalized_name, parse_sdist_filename, parse_wheel_filename,
)  # fmt: skip

NAMES = {
    "foo": "foo", "Foo_Bar": "foo-bar", "foo.Bar": "foo-bar", "a--b": "a-b", "a.-_b": "a-b", "A1": "a1",
    "1.0": "1-0", "x": "x",
}  # fmt: skip
NO_NAMES = {
    "": "", "_foo": "-foo", "Foo_": "foo-", "-": "-", "foo bar": "foo bar", " foo": " foo", "foo\n": "foo\n",
    "f\u00f6o": "f\u00f6o", "foo[x]": "foo[x]", "foo[]": "foo[]", "foo>=1": "foo>=1", "foo;": "foo;",
    "foo @ x": "foo @ x", "\ud800": "\ud800",
}  # fmt: skip


class Names(unittest.TestCase):
    def test_names(self):
        for name, normal in NAMES.items():
            self.assertEqual((canonicalize_name(name), canonicalize_name(normal)), (normal, normal))
            self.assertEqual(canonicalize_name(name, validate=True), normal)
            self.assertIs(is_normalized_name(name), name == normal, name)

    def test_texts_of_other_classes(self):
        """What counts of them are their characters."""
        class Odd(str):
            def __eq__(self, other):
                return True

            def encode(self, *_):
                return b"bar"

            def split(self, *_):
                return ["bar", "2", "py3", "none", "any"]

            __hash__ = str.__hash__

        self.assertEqual(canonicalize_name(Odd("Foo")), "foo")
        self.assertEqual([is_normalized_name(Odd(it)) for it in ("Foo", "foo")], [False, True])
        self.assertEqual(parse_wheel_filename(Odd("foo-1-py3-none-any.whl"))[:2], ("foo", Version("1")))

    def test_no_names(self):
        for name, written in NO_NAMES.items():
            self.assertEqual(canonicalize_name(name), written, repr(name))
            self.assertFalse(is_normalized_name(name), repr(name))
            with self.assertRaises(InvalidName, msg=repr(name)) as found:
                canonicalize_name(name, validate=True)
            self.assertEqual((found.exception.text, found.exception.line), (name, 1))
            self.assertIn(repr(name), str(found.exception))

    def test_other_types(self):
        names = (canonicalize_name, is_normalized_name, canonicalize_version)
        for call in (*names, parse_wheel_filename, parse_sdist_filename):
            for it in (1, None, b"foo-1.zip"):
                with self.assertRaises(TypeError, msg=(call, it)):
                    call(it)


class Versions(unittest.TestCase):
    ROWS = {
        "1.0": ("1", "1.0"), "1.0.0-RC1": ("1rc1", "1.0.0rc1"), "0.0": ("0", "0.0"), "10": ("10", "10"),
        "1!2.0.0a0.post0.dev0+b.0": ("1!2a0.post0.dev0+b.0", "1!2.0.0a0.post0.dev0+b.0"),
        "1.10": ("1.10", "1.10"), "1.0.0+0": ("1+0", "1.0.0+0"), " v1.00 ": ("1", "1.0"),
        "1.0.1.0": ("1.0.1", "1.0.1.0"), "0!0.0": ("0", "0.0"),
    }  # fmt: skip

    def test_versions(self):
        for text, (without, whole) in self.ROWS.items():
            for it in (text, Version(text)):
                self.assertEqual(canonicalize_version(it), without)
                self.assertEqual(canonicalize_version(it, strip_trailing_zero=False), whole)

    def test_many_zeros(self):
        """Each is looked at once, also where they aren't at the end."""
        zeros = ".0" * 300_000
        self.assertEqual(canonicalize_version(f"1{zeros}.1{zeros}rc1"), f"1{zeros}.1rc1")

    def test_texts_that_print_as_others(self):
        text = enum.Enum("texts", {"none": "french toast"}, type=str).none
        self.assertEqual(canonicalize_version(text), "french toast")

    def test_classes_that_print_something_else(self):
        kind = type("Own", (Version,), {"__str__": lambda self: "v9"})
        self.assertEqual(canonicalize_version(kind("1.0.0rc1")), "1rc1")
        self.assertEqual(canonicalize_version(kind("1.0.0rc1"), strip_trailing_zero=False), "1.0.0rc1")

    def test_others_are_left(self):
        for text in ("", "french toast", "1.0.*", " 1.0x ", str(2**64)):
            for strip in (True, False):
                self.assertEqual(canonicalize_version(text, strip_trailing_zero=strip), text)


class Wheels(unittest.TestCase):
    def test_parts(self):
        any_tag = {("py3", "none", "any")}
        rows = [
            ("foo-1.0-py3-none-any.whl", ("foo", "1.0", (), any_tag)),
            ("Foo_Bar.x-1!2.0rc1+a.b-1-py3-none-any.whl", ("foo-bar-x", "1!2.0rc1+a.b", (1, ""), any_tag)),
            ("foo-1.0_post1-007_b.c-py3-none-any.whl", ("foo", "1.0.post1", (7, "_b.c"), any_tag)),
            ("foo-1-py2.py3-NONE-any.whl", ("foo", "1", (), {("py2", "none", "any"), *any_tag})),
            ("foo-1-cp39.cp38-abi3-win32.linux_x86_64.whl", ("foo", "1", (), {
                (one, "abi3", other) for one in ("cp39", "cp38") for other in ("win32", "linux_x86_64")})),
        ]  # fmt: skip
        for filename, (name, version, build, tags) in rows:
            self.assertEqual(parse_wheel_filename(filename), (name, Version(version), build, tags), filename)
            self.assertIsInstance(parse_wheel_filename(filename)[3], frozenset)

    def test_tags(self):
        (tag,) = parse_wheel_filename("foo-1-CP39-abi3-win32.whl")[3]
        self.assertEqual((tag.interpreter, tag.abi, tag.platform), ("cp39", "abi3", "win32"))
        self.assertEqual((str(tag), tag), ("cp39-abi3-win32", Tag("cp39", "abi3", "win32")))

    def test_order_of_tags(self):
        sorted_one, other = "foo-1-py2.py3-none-any.whl", "foo-1-py3.py2-none-any.whl"
        rows = [(sorted_one, None), (other, 6), ("foo-1-2-py3-b.a-any.whl", 8), ("foo-1-py3-none-b.a.whl", 6)]
        for given, at in rows:
            self.assertEqual(parse_wheel_filename(given), parse_wheel_filename(given, validate_order=False))
            if at is None:
                found = parse_wheel_filename(given, validate_order=True)
                self.assertEqual(found, parse_wheel_filename(other))
                continue
            with self.assertRaises(InvalidWheelFilename) as found:
                parse_wheel_filename(given, validate_order=True)
            error = found.exception
            self.assertEqual((error.start, error.end), (at, len(given) - len(".whl")))

    def test_refused(self):
        rows = [
            ("foo-1.0.zip", ""), ("foo-1-py3-none-any.WHL", ""), ("", ""), ("foo-1.whl", "foo-1.whl"),
            ("a-b-1-2-py3-none-any.whl", "a-b-1-2-py3-none-any.whl"),
            ("foo__bar-1-py3-none-any.whl", "foo__bar"), ("_foo-1-py3-none-any.whl", "_foo"),
            ("f\u00f6o-1-py3-none-any.whl", "f\u00f6o"), ("foo -1-py3-none-any.whl", "foo "),
            ("foo-1x-py3-none-any.whl", "1x"), ("foo-1.0_1-py3-none-any.whl", "1.0_1"),
            ("foo--py3-none-any.whl", ""), ("foo-1-x-py3-none-any.whl", "x"), ("foo-1--py3-none-any.whl", ""),
            ("-1-py3-none-any.whl", "-1-py3-none-any.whl"), ("foo-1.*-py3-none-any.whl", "1.*"),
        ]  # fmt: skip
        for filename, part in rows:
            with self.assertRaises(InvalidWheelFilename, msg=filename) as found:
                parse_wheel_filename(filename)
            self.assert_told(found.exception, filename, part)

    def assert_told(self, error, filename, part):
        self.assertEqual((error.text, error.line, filename[error.start : error.end]), (filename, 1, part))
        self.assertIn(repr(filename), str(error))
        self.assertIsInstance(error, Refused)

    @unittest.skipUnless(hasattr(sys, "get_int_max_str_digits"), "this Python reads numbers of any length")
    def test_build_numbers_of_many_digits(self):
        digits = "1" * (sys.get_int_max_str_digits() + 1)
        with self.assertRaises(InvalidWheelFilename):
            parse_wheel_filename(f"foo-1-{digits}-py3-none-any.whl")


class Archives(unittest.TestCase):
    def test_parts(self):
        rows = [
            ("foo-1.0.tar.gz", "foo", "1.0"), ("Foo_Bar-1.0.zip", "foo-bar", "1.0"),
            ("foo-bar-1!2rc1.tar.gz", "foo-bar", "1!2rc1"), ("foo-1.0-2.zip", "foo-1-0", "2"),
            ("foo-1+a.b.zip", "foo", "1+a.b"),
        ]  # fmt: skip
        for filename, name, version in rows:
            self.assertEqual(parse_sdist_filename(filename), (name, Version(version)), filename)

    def test_refused(self):
        rows = [
            ("foo-1.0.tar.bz2", ""), ("foo-1.0.TAR.GZ", ""), ("", ""), ("foo.zip", "foo.zip"),
            (".tar.gz", ".tar.gz"), ("foo-1.x.zip", "1.x"), ("foo-.tar.gz", ""), ("_foo-1.zip", "_foo"),
            ("foo bar-1.zip", "foo bar"),
            ("foo--1.zip", "foo-"), ("-1.zip", "-1.zip"), ("f\u00f6o-1.zip", "f\u00f6o"),
        ]  # fmt: skip
        for filename, part in rows:
            with self.assertRaises(InvalidSdistFilename, msg=filename) as found:
                parse_sdist_filename(filename)
            Wheels.assert_told(self, found.exception, filename, part)


class Kept(unittest.TestCase):
    def test_what_is_found_once(self):
        tags = [parse_wheel_filename("foo-1-py2.py3-none-any.whl")[3] for _ in range(2)]
        self.assertIs(*tags)
        self.assertEqual(utils._kept_names["foo"], "foo")

    def test_long_ones_are_not_kept(self):
        """Nor many tags of one wheel."""
        long, many = "A" * 100_000, ".".join(map(str, range(30)))
        self.assertEqual(canonicalize_name(long), long.lower())
        self.assertEqual(canonicalize_name(f"{long}!"), f"{long}!".lower())
        for filename, count in ((f"{long}-1-{long}-none-any.whl", 1), (f"foo-1-{many}-{many}-any.whl", 900)):
            self.assertEqual(len(parse_wheel_filename(filename)[3]), count)
        self.assertFalse([it for it in utils._kept_names if long in it])
        self.assertFalse([it for it in utils._kept_tags if long.lower() in it or long in it or many in it])

    def test_many(self):
        for it in range(2 * utils._MOST_KEPT):
            self.assertEqual(canonicalize_name(f"A{it}"), f"a{it}")
        self.assertLessEqual(len(utils._kept_names), utils._MOST_KEPT)


class Asked(unittest.TestCase):
    def test_the_library_says_what_a_name_is(self):
        read = _native.requirement
        self.assertTrue(is_normalized_name("foo"))
        # What was found is kept, so that it is asked once.
        self.addCleanup(utils._kept_names.clear)
        utils._kept_names.clear()
        with unittest.mock.patch.object(_native, "requirement", side_effect=lambda text: read(b"-")):
            self.assertFalse(is_normalized_name("foo"))
            with self.assertRaises(InvalidWheelFilename):
                parse_wheel_filename("foo-1-py3-none-any.whl")
            with self.assertRaises(InvalidSdistFilename):
                parse_sdist_filename("foo-1.zip")
