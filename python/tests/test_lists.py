"""Lists, by the repository's examples."""

import enum
import importlib.metadata
import json
import os
import pathlib
import random
import tempfile
import unittest
import warnings
from unittest import mock

import fowlyore
from fowlyore.listings import LONGEST

EXAMPLES = pathlib.Path(__file__).resolve().parents[2] / "examples"
CHECKED = ["first", "spelling", "pip-freeze", "pip-compile"]


class Text(str, enum.Enum):
    """Texts that print as other ones."""

    LINE = "a>=1 ; os_name == 'nt' and extra == 'x'"
    NAME = "a"
    VERSION = "2"
    EXTRA = "x"
    SYSTEM = "nt"
    FULL = "3.14.0+"


def printed(rows):
    return "".join(f"{it}\n" for it in rows)


class Answers(unittest.TestCase):
    def test_check(self):
        for name in CHECKED:
            folder = EXAMPLES / name
            paths = [folder / it for it in ("requirements.txt", "environment.json", "candidates.txt")]
            wanted = (folder / "expected.txt").read_text()
            self.assertEqual(printed(fowlyore.check(*paths)), wanted, name)
            self.assertEqual(printed(fowlyore.check(*(it.read_bytes() for it in paths))), wanted, name)
            self.assertEqual(printed(fowlyore.check(*(it.read_text() for it in paths))), wanted, name)

    def test_check_of_values(self):
        folder = EXAMPLES / "first"
        lines = (folder / "requirements.txt").read_text().splitlines()
        environment = json.loads((folder / "environment.json").read_text())
        pairs = [it.split() for it in (folder / "candidates.txt").read_text().splitlines()]
        versions = {}
        for name, version in pairs:
            versions.setdefault(name, []).append(fowlyore.Version(version))
        wanted = (folder / "expected.txt").read_text()
        self.assertEqual(printed(fowlyore.check(lines, environment, pairs)), wanted)
        self.assertEqual(printed(fowlyore.check(map(str, lines), environment, versions)), wanted)

    def test_rows(self):
        rows = fowlyore.check(["a[x,y]>=1", "b", "c @ https://example.org"], candidates={"a": ["1.0", "0.9"], "c": []})
        self.assertEqual([it.name for it in rows], ["a", "b", "c"])
        self.assertEqual([it.version for it in rows], [fowlyore.Version("1.0"), None, None])
        self.assertEqual([it.is_none for it in rows], [False, True, False])
        self.assertEqual([it.is_direct for it in rows], [False, False, True])
        self.assertEqual(rows[0].extras, ("x", "y"))

    def test_extras_and_requirements(self):
        lines = [fowlyore.Requirement("a ; extra == 'test'"), "b"]
        self.assertEqual(printed(fowlyore.check(lines, candidates="", extras="Test")), "a none\nb none\n")
        self.assertEqual(printed(fowlyore.check(lines, candidates="", extras=["x", "y"])), "b none\n")

    def test_texts_that_print_as_others(self):
        """What counts of a member of an `Enum` that is a text is that text, wherever it is given."""
        environment = {"os_name": Text.SYSTEM, "python_full_version": Text.FULL, "python_version": "3.14"}
        for lines in (Text.LINE, [Text.LINE], [fowlyore.Requirement(Text.LINE)]):
            for candidates in ([(Text.NAME, Text.VERSION)], {Text.NAME: Text.VERSION}, {Text.NAME: [Text.VERSION]}):
                for extras in (Text.EXTRA, [Text.EXTRA]):
                    self.assertEqual(printed(fowlyore.check(lines, environment, candidates, extras)), "a 2\n", (lines, candidates))

    def test_lines_and_their_ends(self):
        self.assertEqual(fowlyore.normal(["a\n", "", "# c\n", "b \r\n", "c"]), ["a", "b", "c"])

    def test_one_version_of_a_mapping(self):
        for version in ("12", " 12\n", fowlyore.Version("12"), ["12"], ("2", fowlyore.Version("12"))):
            self.assertEqual(printed(fowlyore.check("numpy", candidates={"numpy": version})), "numpy 12\n", version)
        found = dict(fowlyore.installed())
        name = sorted(found)[0]
        (row,) = fowlyore.check([f"{name}>=0.dev0"], candidates=found)
        self.assertEqual(row.version, fowlyore.Version(found[name]))

    def test_versions_that_print_something_else(self):
        kind = type("Own", (fowlyore.Version,), {"__str__": lambda self: "9"})
        for candidates in ({"a": kind("1")}, {"a": [kind("1")]}, [("a", kind("1"))]):
            self.assertEqual(printed(fowlyore.check("a", candidates=candidates)), "a 1\n")

    def test_installed(self):
        found = dict(fowlyore.installed())
        name = sorted(found)[0]
        (row,) = fowlyore.check([f"{name}>=0.dev0"])
        self.assertEqual(row.version, fowlyore.Version(found[name]))
        with tempfile.TemporaryDirectory() as room:
            for name, data in (("fine", b"Name: fine\nVersion: 1\n"), ("odd", b"Name: odd\nVersion: 1\nAuthor: \xe9\n")):
                folder = pathlib.Path(room, f"{name}-1.dist-info")
                folder.mkdir()
                (folder / "METADATA").write_bytes(data)
            told, found = [], list(importlib.metadata.distributions(path=[room]))
            with mock.patch.object(importlib.metadata, "distributions", return_value=found):
                self.assertEqual(fowlyore.installed(told), [("fine", "1")])
            self.assertEqual(told, [f"{folder} None"])

    def test_installed_without_a_name(self):
        """What has no name, or no version, isn't installed under the text of None."""
        with tempfile.TemporaryDirectory() as room:
            for name, data in (("a", b"Version: 1\n"), ("b", b"Name: b\n"), ("c", b""), ("none", b"Name: None\nVersion: 1\n")):
                folder = pathlib.Path(room, f"{name}-1.dist-info")
                folder.mkdir()
                (folder / "METADATA").write_bytes(data)
            told, found = [], list(importlib.metadata.distributions(path=[room]))
            with mock.patch.object(importlib.metadata, "distributions", return_value=found), warnings.catch_warnings():
                warnings.simplefilter("error")
                self.assertEqual(fowlyore.installed(told), [("None", "1")])
            self.assertEqual(sorted(told), [f"{pathlib.Path(room, name)}-1.dist-info None" for name in "abc"])

    def test_matrix(self):
        for name, expected in (("first", "expected_matrix.txt"), ("matrix", "expected.txt")):
            folder = EXAMPLES / name
            answers = fowlyore.matrix(*(folder / it for it in ("requirements.txt", "environments.json", "candidates.txt")))
            text = "".join(f"env {at}\n{printed(rows)}" for at, rows in enumerate(answers, 1))
            self.assertEqual(text, (folder / expected).read_text())

    def test_matrix_of_values(self):
        environments = json.loads((EXAMPLES / "first" / "environments.json").read_text())
        answers = fowlyore.matrix(["a ; sys_platform == 'win32'"], environments, {"a": ["1"]})
        self.assertEqual([printed(it) for it in answers], ["", "a 1\n"])
        self.assertEqual(fowlyore.matrix(["a"], [], {"a": ["1"]}), [])

    def test_matrix_of_env(self):
        """Rows of the package `env` that look like the line before an environment's rows."""
        environments = json.loads((EXAMPLES / "first" / "environments.json").read_text())
        lines = ["env", "ENV<2 ; sys_platform == 'win32'", "f ; sys_platform == 'linux'"]
        for versions, wanted in ((["1", "2"], ["env 2\nf none\n", "env 1\n"]), (["1.0"], ["env 1.0\nf none\n", "env 1.0\n"])):
            self.assertEqual(fowlyore.matrix_texts(lines, environments, {"env": versions}), wanted)
            self.assertEqual([printed(it) for it in fowlyore.matrix(lines, environments, {"env": versions})], wanted)

    def test_matrix_past_the_limit(self):
        """A package with too many cases for a table, next to others, is answered as by `check`."""
        choose = random.Random(4)
        many = [f"Many>={it % 3} ; extra == 'x{it}'" for it in range(13)]
        places = ["os_name == 'nt'", "python_version < '3.8'", "extra == 'x1'", "'3' in platform_release"]
        for _ in range(8):
            lines = [*many, *choose.sample(["env", "env<2", "a[x]>=1", "a==2", "b @ https://e.org/b", "c!=1"], 3)]
            lines = [it if " ; " in it or choose.random() < 0.5 else f"{it} ; {choose.choice(places)}" for it in lines]
            candidates = [(name, str(it)) for name in ("many", "env", "a", "c") for it in range(choose.randrange(4))]
            environments = [self.environment(choose) for _ in range(choose.randrange(4))]
            given = f" [\n{' , '.join(map(json.dumps, environments))}\t] "
            extras = [f"x{it}" for it in choose.sample(range(13), 2)]
            wanted = [fowlyore.check(lines, json.dumps(it), candidates, extras) for it in environments]
            self.assertEqual(fowlyore.matrix(lines, given, candidates, extras), wanted, lines)
            self.assertEqual(fowlyore.matrix_texts(lines, given, candidates, extras), list(map(printed, wanted)))
            for call in (fowlyore.matrix, fowlyore.matrix_texts):
                with self.assertRaisesRegex(fowlyore.InvalidInput, "^requirements: more than 4096 cases for many$"):
                    call(lines, given, candidates, extras, limit=4096)

    @staticmethod
    def environment(choose):
        """Some values, and members that no marker sees."""
        full = choose.choice(["3.7.1", "3.11.7"])
        values = {**fowlyore.default_environment(), "python_full_version": full, "python_version": full[:-2]}
        values.update(os_name=choose.choice(["nt", "posix"]), platform_release=choose.choice(['", "[{', "\\", "3\u00e9"]))
        return {**values, "more": [{"]": [1, {}]}, None]}

    def test_matrix_past_the_limit_of_what_is_read(self):
        """With constraints, which ask for nothing, and other faults, which stay."""
        environments = json.loads((EXAMPLES / "first" / "environments.json").read_text())
        with tempfile.TemporaryDirectory() as folder:
            path = pathlib.Path(folder, "list.txt")
            many = "".join(f"many>=0.{it} ; extra == 'x{it}'\n" for it in range(13))
            path.write_text(f"-c pins.txt\n{many}a\n")
            path.with_name("pins.txt").write_text("a<2\nz==1\nmany<0.9\n")
            listing = fowlyore.read(path)
            candidates = {"a": ["1", "2"], "many": ["0.8", "0.9"], "z": ["1"]}
            answers = fowlyore.matrix(listing, environments, candidates, ["x3", "x12"])
            self.assertEqual([printed(it) for it in answers], ["a 1\nmany none\n"] * 2)
            self.assertEqual(fowlyore.matrix(listing, [], candidates), [])
            with self.assertRaisesRegex(fowlyore.InvalidInput, "list.txt: more than 4096 cases for many$"):
                fowlyore.matrix(listing, environments, candidates, limit=4096)
            for given in (("a=1", environments, ""), (many, [{}], ""), (many, environments, "a"), (many, environments, "", "-")):
                with self.assertRaises(fowlyore.InvalidInput):
                    fowlyore.matrix(*given)

    def test_matrix_texts(self):
        folder = EXAMPLES / "matrix"
        inputs = [folder / it for it in ("requirements.txt", "environments.json", "candidates.txt")]
        for extras in ((), ("test",)):
            wanted = [printed(it) for it in fowlyore.matrix(*inputs, extras)]
            self.assertEqual(fowlyore.matrix_texts(*inputs, extras), wanted)
        self.assertEqual(fowlyore.matrix_texts("a", "[]", ""), [])
        # an answer that is longer than its inputs
        names = [f"p{it}" for it in range(100, 200)]
        environment = json.loads((EXAMPLES / "first" / "environment.json").read_text())
        wanted = "".join(f"{it} none\n" for it in names)
        self.assertEqual(fowlyore.matrix_texts(names, [environment] * 300, ""), [wanted] * 300)

    def test_same(self):
        before, after, rewritten = (EXAMPLES / "lock" / f"{it}.txt" for it in ("before", "after", "rewritten"))
        self.assertTrue(fowlyore.same(before, rewritten))
        answer = fowlyore.same(before, after)
        self.assertEqual((bool(answer), answer.package, answer.place), (False, "tomli", "python_full_version < '3.11'"))
        self.assertEqual(f"{answer}\n", (EXAMPLES / "lock" / "expected_same.txt").read_text())
        self.assertEqual(answer.marker, answer.place)
        everywhere = fowlyore.same("foo", "foo<1")
        self.assertEqual((everywhere.place, everywhere.marker), ("all environments", None))
        self.assertIsNone(fowlyore.same("foo", "foo").marker)

    def test_covers(self):
        self.assertTrue(fowlyore.covers("foo==1.2", "foo>=1"))
        self.assertTrue(fowlyore.covers("foo[a,b]==1\nbar==2", "foo[b]"))
        answer = fowlyore.covers("foo==1.2 ; os_name=='nt'", "# names\nfoo>=1")
        self.assertEqual((bool(answer), answer.package, answer.place, answer.lines), (False, "foo", "os_name != 'nt'", (2,)))
        self.assertEqual(answer.marker, answer.place)
        self.assertEqual(str(answer), "no\nfoo\nos_name != 'nt'\n2")
        everywhere = fowlyore.covers("foo", "foo<1\nfoo[a]")
        self.assertEqual((everywhere.place, everywhere.marker, everywhere.lines), ("all environments", None, (1, 2)))
        self.assertEqual((fowlyore.covers("foo", "foo").marker, str(fowlyore.covers("foo", ""))), (None, "yes"))
        before, after = (EXAMPLES / "lock" / f"{it}.txt" for it in ("before", "rewritten"))
        self.assertTrue(fowlyore.covers(before, after) and fowlyore.covers(after, before))

    def test_conflicts(self):
        found = fowlyore.conflicts(EXAMPLES / "apart" / "requirements.txt")
        self.assertEqual(found, [fowlyore.Conflict("numpy", (2, 7), False)])
        self.assertEqual([str(it) for it in fowlyore.conflicts("a<1.0rc1\na>2")], ["a 1,2 pre"])

    def test_normal(self):
        given = 'Foo_Bar [b , a] < 2.0 , >= 1.16 ; python_version >= "3.8"\nnever ; os_name < \'a\' and os_name > \'b\'\n'
        self.assertEqual(fowlyore.normal(given), ["foo-bar[b,a]>=1.16,<2.0 ; python_full_version >= '3.8'"])
        self.assertEqual(fowlyore.normal([]), [])

    def test_lines_of_answers(self):
        """A line feed alone ends them; what else ends a line of `str.splitlines` may stand in a marker's text."""
        for it in "\r\v\f\x1c\x1d\x1e\x85\u2028\u2029":
            place = f"platform_version == 'a{it}b'"
            self.assertEqual(fowlyore.normal(f"foo ; {place}\nbar\n"), [f"foo ; {place}", "bar"], repr(it))
            self.assertEqual(fowlyore.same("foo", f"foo\nfoo<1 ; {place}").place, place, repr(it))


class Assumptions(unittest.TestCase):
    WINDOWS = "os_name == 'nt' and sys_platform == 'win32'"
    REAL = f"{WINDOWS} or os_name == 'posix' and sys_platform != 'win32'"

    def test_conflicts(self):
        apart = ["foo>=2 ; sys_platform == 'win32'", "foo<2 ; os_name == 'posix'"]
        self.assertEqual(fowlyore.conflicts(apart), [fowlyore.Conflict("foo", (1, 2), False)])
        self.assertEqual(fowlyore.conflicts(apart, assume=self.REAL), [])
        extras = ["foo>=2", "foo<2 ; extra == 'a'", "foo<1 ; extra != 'a'"]
        for marker, lines in (("extra == 'A'", (1, 2)), ("extra != 'a'", (1, 3))):
            self.assertEqual([it.lines for it in fowlyore.conflicts(extras, assume=marker)], [lines])

    def test_same(self):
        left, right = "foo ; os_name == 'nt'", f"foo ; {self.WINDOWS}"
        self.assertFalse(fowlyore.same(left, right))
        self.assertTrue(fowlyore.same(left, right, assume=fowlyore.Marker(self.REAL)))
        answer = fowlyore.same("foo>=1", "foo>=2", assume="extra == 'a'")
        self.assertEqual((answer.package, answer.place, answer.marker), ("foo", "extra == 'a'", "extra == 'a'"))

    def test_covers(self):
        lock = "foo==1.2 ; os_name == 'nt'"
        self.assertTrue(fowlyore.covers(lock, "foo>=1", assume="os_name == 'nt'"))
        answer = fowlyore.covers(lock, "bar\nfoo>=1 ; os_name != 'java'", assume="os_name == 'nt' or os_name == 'posix'")
        self.assertEqual((answer.package, answer.lines), ("bar", (1,)))
        answer = fowlyore.covers(lock, "foo>=1", assume="os_name == 'nt' or os_name == 'posix'")
        self.assertEqual((answer.package, answer.place, answer.lines), ("foo", "os_name == 'posix'", (1,)))

    def test_constants(self):
        """What always holds changes nothing, and where nothing holds nothing is required."""
        before, after = (EXAMPLES / "lock" / f"{it}.txt" for it in ("before", "after"))
        apart = EXAMPLES / "apart" / "requirements.txt"
        for always in ("'a' == 'b'", "os_name == 'a' or os_name != 'a'"):
            self.assertEqual(fowlyore.same(before, after, assume=always), fowlyore.same(before, after))
            self.assertEqual(fowlyore.covers(before, after, assume=always), fowlyore.covers(before, after))
            self.assertEqual(fowlyore.conflicts(apart, assume=always), fowlyore.conflicts(apart))
        never = "os_name == 'a' and os_name == 'b'"
        self.assertTrue(fowlyore.same(before, after, assume=never) and fowlyore.covers("foo", before, assume=never))
        self.assertEqual(fowlyore.conflicts(apart, assume=never), [])

    def test_joined_by_and(self):
        """Answers are those on lists whose lines have the marker joined by `and`."""
        draw = random.Random(1)
        for _ in range(200):
            lists = [[self.line(draw) for _ in range(3)] for _ in "ab"]
            assume = self.marker(draw)
            joined = [[f"{name};({marker}) and ({assume})" for name, marker in (it.split(";") for it in one)] for one in lists]
            self.assertEqual(fowlyore.same(*lists, assume=assume), fowlyore.same(*joined), (lists, assume))
            self.assertEqual(fowlyore.covers(*lists, assume=assume), fowlyore.covers(*joined), (lists, assume))
            self.assertEqual(fowlyore.conflicts(lists[0], assume=assume), fowlyore.conflicts(joined[0]), (lists, assume))

    @classmethod
    def line(cls, draw):
        return f"{draw.choice('fg')}{draw.choice(('>=1', '<1', '>=2', '[e]'))};{cls.marker(draw)}"

    @staticmethod
    def marker(draw):
        keys = draw.choices(("os_name", "sys_platform", "extra"), k=draw.choice((1, 2)))
        return draw.choice((" and ", " or ")).join(f"{it} {draw.choice(('==', '!='))} '{draw.choice('xy')}'" for it in keys)

    def test_refusals(self):
        for call in (fowlyore.same, fowlyore.covers):
            with self.assertRaises(fowlyore.InvalidInput) as found:
                call("a", "b b", assume="os_name == 'nt'")
            self.assertEqual(found.exception.input, "right" if call is fowlyore.same else "requirements")
        with self.assertRaises(fowlyore.TooManyNodes):
            fowlyore.conflicts("foo", assume="os_name == 'nt'", nodes=0)
        with self.assertRaises(fowlyore.TooManyClauses):
            fowlyore.same("foo", "", assume="os_name == 'nt' or sys_platform == 'win32'", clauses=1)


class NoMarkers(unittest.TestCase):
    def test_as_markers_are_refused(self):
        calls = [lambda it: fowlyore.same("a a", "b", assume=it), lambda it: fowlyore.covers("a a", "b", assume=it)]
        for call in (*calls, lambda it: fowlyore.conflicts("a a", assume=it)):
            for given in ("os_name == 'nt' and bad == 'x'", "", "os_name\n", "\ud800", b"os_name == 'nt'", 5):
                with self.assertRaises((fowlyore.InvalidMarker, TypeError)) as wanted:
                    fowlyore.Marker(given)
                with self.assertRaises(type(wanted.exception)) as found:
                    call(given)
                self.assertEqual(str(found.exception), str(wanted.exception))


class Refusals(unittest.TestCase):
    def refused(self, call, *given, **named):
        with self.assertRaises(fowlyore.InvalidInput) as found:
            call(*given, **named)
        return found.exception

    def test_a_line(self):
        error = self.refused(fowlyore.check, "foo\n# \u00e9\nfoo ; platform_version == '\u00e9' and bar\n", candidates="")
        self.assertEqual((error.input, error.line, error.path), ("requirements", 3, None))
        self.assertEqual(error.text[error.start : error.end], "bar")
        self.assertIn("requirements: line 3", str(error))

    def test_a_file(self):
        with tempfile.TemporaryDirectory() as folder:
            path = pathlib.Path(folder, "list.txt")
            path.write_text("foo=1\n")
            error = self.refused(fowlyore.normal, path)
            self.assertEqual(error.path, os.fspath(path))
            self.assertTrue(str(error).startswith(f"{path}: line 1, byte 3, length "), error)

    def test_which_input(self):
        self.assertEqual(self.refused(fowlyore.same, "a", "b b").input, "right")
        self.assertEqual(self.refused(fowlyore.covers, "a a", "b").input, "lock")
        self.assertEqual(self.refused(fowlyore.covers, "a", "b @ https://e.example/b").input, "requirements")
        self.assertEqual(self.refused(fowlyore.check, "a", "{}", "").input, "environment")
        self.assertEqual(self.refused(fowlyore.check, "a", "[", "").input, "environment")
        error = self.refused(fowlyore.check, "a", None, "a 1\na x\n")
        self.assertEqual((error.input, error.line), ("candidates", 2))
        for extras in ("no name", ["a\nb"], [""]):
            self.assertEqual(self.refused(fowlyore.check, "a", None, "", extras).input, "extras")

    def test_carets(self):
        """Which errors show the line, as docs/PYTHON.md says."""
        makes = [(fowlyore.Version, "1.x"), (fowlyore.Specifier, "=1"), (fowlyore.SpecifierSet, ">=1,=2"), (fowlyore.Marker, "os_name")]
        for make, text in (*makes, (fowlyore.Requirement, "foo=1"), (fowlyore.normal, "foo\nbar=1")):
            with self.assertRaises(fowlyore.Refused) as found:
                make(text)
            self.assertRegex(str(found.exception), r"\n *\^+\n?\Z")
        calls = [
            lambda: fowlyore.check("a", None, "a x\n"),
            lambda: fowlyore.check("a", "{}", ""),
            lambda: fowlyore.check("a", None, "", "no name"),
            lambda: fowlyore.same("a===1", "a"),
        ]
        for call in calls:
            self.assertNotIn("^", str(self.refused(call)))

    def test_no_text(self):
        rows = [
            (b"\xff\n", (1, "\ufffd", 0, 1)), (b"a\n\xff\n", (2, "\ufffd", 0, 1)),
            (b"\n\nb\xc3\xa9\xe2\x82>\n", (3, "b\u00e9\ufffd>", 2, 3)),
            (["a", "b \ud800"], (2, "b " + "\ufffd" * 3, 2, 3)),
        ]  # fmt: skip
        for given, place in rows:
            error = self.refused(fowlyore.normal, given)
            self.assertEqual((error.input, (error.line, error.text, error.start, error.end)), ("requirements", place), given)
        with mock.patch.dict(os.environ, {"VALUE": "\udcff"}), tempfile.TemporaryDirectory() as folder:
            path = pathlib.Path(folder, "list.txt")
            path.write_text("--pre\n\nfoo==${VALUE}\n")
            error = self.refused(fowlyore.normal, fowlyore.read(path))
        self.assertEqual((error.path, error.line, error.text), (str(path), 3, "foo==${VALUE}"))

    def test_no_lines(self):
        error = self.refused(fowlyore.normal, ["a", "b\nc"])
        self.assertEqual((error.input, error.line, error.text), ("requirements", 2, "b\nc"))
        self.assertEqual(self.refused(fowlyore.same, ["a"], ["a\nb\n"]).input, "right")
        for lines in ([None], [3], [b"a"], ["a", 1.5], memoryview(b"a")):
            with self.assertRaises(TypeError, msg=lines):
                fowlyore.normal(lines)
        for extras in ([3], [None], [b"a"], b"a", ["a", "\ud800"], [10**5000]):
            error = self.refused(fowlyore.check, "a", None, "", extras)
            self.assertEqual((error.input, error.message[:8]), ("extras", "extras: "))

    def test_what_prints_as_a_line(self):
        """Of a mapping the values would be lost, and a path or a member of an `Enum` prints as a text that is no requirement."""
        plain = enum.Enum("plain", ["a"])
        others = [[it] for it in (pathlib.Path("a"), plain.a, memoryview(b"a"), 1j, ..., NotImplemented, fowlyore.Version("1"))]
        for lines in ({"a": ">=2"}, *others):
            for call in (fowlyore.normal, lambda it: fowlyore.check(it, candidates=""), lambda it: fowlyore.same("a", it)):
                with self.assertRaises(TypeError, msg=lines):
                    call(lines)
        for versions in (None, 1, 1.1, fowlyore.Specifier("==1")):
            with self.assertRaisesRegex(TypeError, "^the versions of 'a' are one str or several, not ", msg=versions):
                fowlyore.check("a", candidates={"b": "1", "a": versions})
        for pair in ((pathlib.Path("a"), "1"), ("a", pathlib.Path("1")), (plain.a, "1"), ("a",), ("a", "1", "2"), 3, None):
            with self.assertRaisesRegex(TypeError, "a candidate is a pair|is given as a str", msg=pair):
                fowlyore.check("a", candidates=[("b", "1"), pair])

    def test_numbers_without_a_text(self):
        """A number of some thousand digits can't be printed."""
        many = 10**5000
        for candidates in ([(many,)], [many], {many: None}, [(many, "1")], [("a", many)], {many: "1"}, {"a": [many]}):
            with self.assertRaisesRegex(TypeError, "a candidate is a pair|the versions of .* are one|is given as a str"):
                fowlyore.check("a", candidates=candidates)

    def test_a_path_that_is_a_text(self):
        """What is both is a path."""
        class Path(str):
            def __fspath__(self):
                return str(self)

        with tempfile.TemporaryDirectory() as folder:
            for name in ("requirements.txt", "list"):
                path = pathlib.Path(folder, name)
                path.write_text("foo\n")
                self.assertEqual((fowlyore.normal(Path(path)), fowlyore.read(Path(path)).path), (["foo"], str(path)))

    def test_environments_that_are_no_mappings(self):
        environment = fowlyore.default_environment()
        pairs = list(environment.items())
        calls = [lambda: fowlyore.check("a", pairs, ""), lambda: fowlyore.check("a", 3, "")]
        calls += [lambda it=it: fowlyore.matrix("a", it, "") for it in (environment, [pairs], [None], ["{}"])]
        marker = fowlyore.Marker("os_name == 'nt'")
        calls += [lambda it=it: marker.evaluate(it) for it in (pairs, "os_name", 3, [], "", 0, False)]
        # (whatever is known of the running environment)
        self.assertEqual(marker.evaluate({}), marker.evaluate())
        for call in calls:
            with self.assertRaisesRegex(TypeError, "^an environment is a mapping, not "):
                call()

    def test_environments_that_have_only_keys(self):
        """As a row of a table, they are read as a mapping is."""
        class Keys:
            def __init__(self, values):
                self.keys, self.__class__.__getitem__ = values.keys, lambda self, key: values[key]

            def __iter__(self):
                return iter(self[key] for key in self.keys())

        values = {**fowlyore.default_environment(), "os_name": "nt", "python_version": "2.7"}
        del values["python_full_version"]
        for given in (values, Keys(values)):
            self.assertTrue(fowlyore.Marker("os_name == 'nt' and python_version == '2.7'").evaluate(given))
            (row,) = fowlyore.check("a ; os_name == 'nt' and python_version == '2.7'", given, "a 1")
            self.assertEqual(row.outcome, "1")
        values["python_full_version"] = "2.7.18"
        self.assertEqual(fowlyore.matrix("a", [Keys(values)], "a 1"), [[row]])

    def test_environments_that_have_no_text(self):
        """Their member is named, also of a number and a text that JSON has no value for."""
        whole = fowlyore.default_environment()
        for value in ("a\ud800", float("nan"), float("inf")):
            environment = {**whole, "os_name": value}
            for call in (lambda it: fowlyore.check("a", it, ""), lambda it: fowlyore.matrix("a", [it], "")):
                with self.assertRaisesRegex(fowlyore.InvalidInput, "environment 1: member os_name is missing or no text$"):
                    call(environment)

    def test_too_long(self):
        """A file is refused as its text is, of which no more is read than that takes."""
        def told(call, given):
            with self.assertRaises(fowlyore.InvalidInput) as found:
                call(given)
            it = found.exception
            return it.message, it.input, it.text, it.line, it.start, it.end, it.entry

        calls = {
            "requirements": fowlyore.normal, "environment": lambda it: fowlyore.check("foo", it, ""),
            "environments": lambda it: fowlyore.matrix("foo", it, ""), "candidates": lambda it: fowlyore.check("foo", None, it),
        }  # fmt: skip
        with tempfile.TemporaryDirectory() as folder:
            path = pathlib.Path(folder, "list")
            path.write_bytes(b"#" * (LONGEST + 2))
            for name, call in calls.items():
                said = told(call, path.read_bytes())
                self.assertEqual(said[:2], (f"{name}: longer than {LONGEST} bytes", name))
                self.assertEqual(told(call, path), said)
            self.assertEqual(told(fowlyore.read, path), told(fowlyore.normal, path))
            path.write_bytes(b"#" * LONGEST)
            self.assertEqual((fowlyore.normal(path), fowlyore.normal(fowlyore.read(path))), ([], []))

    def test_longer_files_of_pip(self):
        """Where something of pip's may be in what a list may have, a longer file is read: also if a character ends behind that."""
        with tempfile.TemporaryDirectory() as folder:
            path = pathlib.Path(folder, "list")
            long = b"#" * LONGEST
            for text in (b"--pre\n" + long, b"# coding: latin-1\n# \xe4" + long, b"#" + "\u20ac".encode() * (LONGEST // 3 + 1)):
                path.write_bytes(text + b"\n--no-index\nfoo\n")
                self.assertEqual(fowlyore.normal(fowlyore.read(path)), ["foo"], text[:20])

    def test_no_candidates(self):
        """What would be read as other candidates than it says."""
        for pair in (
            ("a", "1\nb 2"), ("a\nb", "1"), ("# a", "1"), ("a 1 #", "2"), ("a", "1 # b"), ("", "a 1"), ("", ""), ("a 1", ""),
            ("\t", "a 1"), ("a\xa01", ""), ("a b", "1"),
        ):  # fmt: skip
            for candidates in ([("c", "1"), pair], {"c": "1", pair[0]: pair[1]}):
                self.assertEqual(self.refused(fowlyore.check, "a", None, candidates).input, "candidates", candidates)
        pairs = ((None, "1"), ("a", None), ("a", 1.10), ("a", 1), (b"a", "1"), ("a", b"1"))
        for candidates in (["a1"], ["a 1"], ("a", "1"), [b"ab"], {"a": [1.10]}, *([("c", "1"), it] for it in pairs)):
            with self.assertRaises(TypeError, msg=candidates):
                fowlyore.check("a", candidates=candidates)
        self.assertEqual(printed(fowlyore.check("a", candidates=[(" a\t", " 1 "), ("a", fowlyore.Version("2"))])), "a 2\n")

    def test_limits(self):
        calls = [
            lambda limit: fowlyore.matrix("a", [], "", limit=limit),
            lambda limit: fowlyore.matrix_texts("a", [], "", limit=limit),
            lambda limit: fowlyore.same("a", "a", limit),
            lambda limit: fowlyore.conflicts("a", limit),
        ]
        for call in calls:
            for limit in (-1, 1_000_001, 2**64, 2**64 + 4096, 10**5000):
                self.assertEqual(self.refused(call, limit).input, "limit", limit)
            call(1_000_000)
            self.assertIn("more than 0 cases", str(self.refused(call, 0)))
            for limit in ("5", 5.0):
                with self.assertRaises(TypeError):
                    call(limit)

    def test_a_path_that_is_no_path(self):
        self.assertIn("pathlib.Path", str(self.refused(fowlyore.check, "requirements.txt", candidates="")))
        self.assertEqual(printed(fowlyore.check(b"requirements.txt", candidates="")), "requirements-txt none\n")

    def test_no_file(self):
        with self.assertRaises(FileNotFoundError):
            fowlyore.normal(pathlib.Path("/no/such/file"))

    def test_too_many_cases(self):
        lines = [f"a>{it} ; extra == 'x{it}'" for it in range(4)]
        self.assertEqual(len(fowlyore.matrix(lines, [], "", limit=16)), 0)
        self.refused(fowlyore.matrix, lines, [], "", limit=15)
        self.refused(fowlyore.same, lines, lines, limit=15)
        self.refused(fowlyore.conflicts, lines, limit=15)
