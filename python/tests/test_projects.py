"""`pyproject.toml` and lock files."""

import importlib.util
import json
import os
import random
import sys
import unittest
from unittest import mock

import fowlyore
from fowlyore import Assumption, LeftOut, Place, check, matrix, normal, read
from fowlyore.explanations import explain
from fowlyore.utils import normal_name
from tests.test_command import run
from tests.test_files import ENVIRONMENT, WINDOWS, InFolder


def has_toml():
    """Whether TOML can be read. Below Python 3.11, and without the package tomli, these tests read it by that of pip."""
    if any(importlib.util.find_spec(it) for it in ("tomllib", "tomli")):
        return True
    try:
        sys.modules["tomli"] = importlib.import_module("pip._vendor.tomli")
    except ImportError:
        return False
    return True


HAS_TOML = has_toml()
ROUNDS = 100
PROJECT = """
[project]
name = "app"
requires-python = ">=3.8"
dependencies = ["foo>=1", "bar ; os_name == 'nt'"]

[project.optional-dependencies]
Gui_Extra = ["baz<2", "qux ; os_name == 'nt' or os_name == 'x'", "far @ https://e.org/far.whl"]
"b" = []

[dependency-groups]
Test = ["pytest>=7", {include-group = "lint.all"}]
"lint.all" = ["ruff"]
docs = [{include-group = "test"}, {include-group = "Lint_All"}, "sphinx"]
"""
LOCK = """
lock-version = "1.0"
requires-python = ">=3.9"
environments = ["os_name == 'posix'"]
created-by = "x"

[[packages]]
name = "foo"
version = "1.5"
marker = "os_name == 'nt' or os_name == 'posix'"

[[packages]]
name = "local"
directory = {path = "."}

[[packages]]
name = "Bar"
version = "2.0+cpu"
"""


class Counted(str):
    """A text that counts how often it is compared."""

    __hash__ = str.__hash__
    count = 0

    def __eq__(self, other):
        Counted.count += 1
        return str(self) == str(other)


class OfToml(InFolder):
    def project(self, text, name="pyproject.toml"):
        path = self.folder / name
        path.write_bytes(text if isinstance(text, bytes) else text.encode())
        return path

    def fault(self, text, name="pyproject.toml", **named):
        """The message of what reading, and then checking, refuses, and where."""
        path = self.project(text, name)
        error = self.refused(lambda: check(read(path, **named), ENVIRONMENT, ""))
        self.assertEqual(error.path, str(path))
        return self.said(error), error.entry

    def lines(self, listing):
        return [(it.text, it.place.entry) for it in listing.lines]


@unittest.skipUnless(HAS_TOML, "there is no tomllib and no tomli, which read TOML")
class Projects(OfToml):
    def test_many_extras(self):
        """No extra is compared with each other one."""
        entries = "".join(f"a{it} = ['app[a{it - 1}]']\n" for it in range(1, 300))
        path = self.project(f"[project]\nname = 'app'\n[project.optional-dependencies]\na0 = []\n{entries}")
        Counted.count = 0
        with mock.patch("fowlyore.projects.normal_name", lambda it: Counted(normal_name(it))):
            self.assertEqual(len(read(path).provided_extras), 300)
        self.assertLess(Counted.count, 3000)

    def test_many_lines_of_an_extra(self):
        """What may be put into one marker is put into that of each line."""
        many = ", ".join(f"'a{it}'" for it in range(10_001))
        listing = read(self.project(f"[project]\nname = 'app'\n[project.optional-dependencies]\nall = ['app[gui]']\ngui = [{many}]\n"))
        self.assertEqual(listing.left_out, ())
        self.assertEqual({it.text.partition(" ; ")[2] for it in listing.lines}, {"(extra == 'gui' or extra == 'all')"})

    def test_extras_that_name_too_many(self):
        """A chain of extras names each of those before it, which is told where they are more than a list may have."""
        entries = "".join(f"a{it} = ['app[a{it + 1}]', 'foo{it}']\n" for it in range(20))
        path = self.project(f"[project]\nname = 'app'\n[project.optional-dependencies]\n{entries}a20 = []\n")
        self.assertEqual(read(path).left_out, ())
        with mock.patch("fowlyore.conditions._MOST_NAMES", 200):
            listing = read(path)
        self.assertEqual((len(listing.lines), len(listing.left_out)), (20, 20))
        self.assertIn("in too many ways", listing.left_out[0].why)

    def test_lines(self):
        path = self.project(PROJECT)
        listing = read(path)
        extra = "extra == 'gui-extra'"
        self.assertEqual(
            self.lines(listing),
            [
                ("foo>=1", "project.dependencies[0]"),
                ("bar ; os_name == 'nt'", "project.dependencies[1]"),
                (f"baz<2 ; {extra}", "project.optional-dependencies.Gui_Extra[0]"),
                (f"qux ;( os_name == 'nt' or os_name == 'x') and {extra}", "project.optional-dependencies.Gui_Extra[1]"),
                (f"far @ https://e.org/far.whl ; {extra}", "project.optional-dependencies.Gui_Extra[2]"),
            ],
        )
        self.assertEqual((listing.provided_extras, listing.left_out, listing.path), (("gui-extra", "b"), (), str(path)))
        self.assertEqual(
            listing.assumed, (Assumption("requires-python", ">=3.8", Place(str(path), entry="project.requires-python")),)
        )
        self.assertEqual(self.lines(read(self.folder)), self.lines(listing))

    def test_rows(self):
        listing = read(self.project(PROJECT))
        rows = lambda *given: [str(it) for it in check(listing, *given)]
        self.assertEqual(rows(ENVIRONMENT, "foo 1"), ["foo 1"])
        self.assertEqual(rows(ENVIRONMENT, "", "GUI-extra"), ["baz none", "far direct", "foo none"])
        self.assertEqual(rows(WINDOWS, "", "gui_extra"), ["bar none", "baz none", "far direct", "foo none", "qux none"])

    def test_groups(self):
        path = self.project(PROJECT)
        of_groups = lambda *names: self.lines(read(path, groups=names))[5:]
        pytest, ruff = ("pytest>=7", "dependency-groups.Test[0]"), ("ruff", 'dependency-groups."lint.all"[0]')
        self.assertEqual(of_groups("test"), [pytest, ruff])
        self.assertEqual(of_groups("lint-all", "TEST"), [ruff, pytest])
        self.assertEqual(of_groups("docs", "docs"), [pytest, ruff, ("sphinx", "dependency-groups.docs[2]")])
        self.assertEqual(self.lines(read(path, groups="test")), self.lines(read(path, groups=["test"])))
        alone = read(self.project("[dependency-groups]\na = ['x']\n"), groups="a")
        self.assertEqual((self.lines(alone), alone.provided_extras), ([("x", "dependency-groups.a[0]")], ()))
        count = 5000
        deep = "".join(f"g{it} = [{{include-group = 'g{it + 1}'}}]\n" for it in range(count))
        listing = read(self.project(f"[dependency-groups]\n{deep}g{count} = ['x']\n"), groups="g0")
        self.assertEqual(self.lines(listing), [("x", f"dependency-groups.g{count}[0]")])

    def test_what_is_left_out(self):
        listing = read(self.project("[project]\ndynamic = ['version', 'dependencies', 'requires-python']\n"))
        self.assertEqual([it.what for it in listing.left_out], ["project.dependencies", "project.requires-python"])
        self.assertEqual([it.why for it in listing.left_out], ["what builds the project tells it"] * 2)
        self.assertEqual([it.place.entry for it in listing.left_out], ["project.dynamic"] * 2)

    def test_extras_of_its_own(self):
        """They apply where another extra asks for them; a group asks for the project."""
        tables = "[project]\nname = 'App'\noptional-dependencies = {all = ['app[gui]', 'foo[x]'], gui = ['bar']}\n"
        listing = read(self.project(f"{tables}[dependency-groups]\ndev = ['app[gui]']\n"), groups="dev")
        lines = ["foo[x] ; extra == 'all'", "bar ; (extra == 'gui' or extra == 'all')", "app[gui]"]
        self.assertEqual(([it for it, _ in self.lines(listing)], listing.left_out), (lines, ()))
        rows = lambda extras: [it.name for it in check(listing, ENVIRONMENT, "", extras)]
        self.assertEqual([rows(it) for it in ((), "all", "gui")], [["app"], ["app", "bar", "foo"], ["app", "bar"]])

    def test_circles_of_its_extras(self):
        path = self.project(
            "[project]\nname = 'app'\n[project.optional-dependencies]\n"
            "a = ['app[b]', 'x']\nb = [\"App[c,b] ; os_name == 'nt'\", 'y']\nc = ['APP[a]', 'z']\n"
        )
        listing = read(path)
        self.assertEqual((listing.left_out, listing.provided_extras), ((), ("a", "b", "c")))
        for extra, names, on_windows in (("a", "xy", "xyz"), ("b", "y", "xyz"), ("c", "xyz", "xyz")):
            found = ["".join(it.name for it in check(listing, of, "", extra)) for of in (ENVIRONMENT, WINDOWS)]
            self.assertEqual(found, [names, on_windows], extra)

    def test_random_extras_of_its_own(self):
        """As they are followed one by one."""
        windows, others = (lambda it: it is WINDOWS), (lambda it: it is not WINDOWS)
        markers = {"": lambda _: True, " ; os_name == 'nt'": windows, " ; os_name != 'nt'": others}
        for seed in range(ROUNDS):
            draw = random.Random(seed)
            extras = "abcdef"[: draw.randrange(2, 7)]
            asked = [
                (draw.choice(extras), draw.choice(extras), draw.choice([*markers]))
                for _ in range(draw.randrange(10))
            ]  # fmt: skip
            entries = {it: [f"of-{it}", *(f"app[{to}]{marker}" for by, to, marker in asked if by == it)] for it in extras}
            tables = "".join(f"{it} = {json.dumps(those)}\n" for it, those in entries.items())
            listing = read(self.project(f"[project]\nname = 'app'\n[project.optional-dependencies]\n{tables}"))
            environment = draw.choice([ENVIRONMENT, WINDOWS])
            wanted = set(draw.sample(extras, draw.randrange(1, 3)))
            found = [it.name for it in check(listing, environment, "", wanted)]
            built = check(self.built(extras, asked), environment, "", wanted)
            for _ in extras:
                wanted |= {to for by, to, marker in asked if by in wanted and markers[marker](environment)}
            self.assertEqual((found, listing.left_out), ([f"of-{it}" for it in sorted(wanted)], ()), seed)
            self.assertEqual([it.name for it in built], found, seed)

    def built(self, extras, asked):
        """The metadata of a wheel of such a project."""
        lines = ["Name: app", *(f"Requires-Dist: of-{it} ; '{it}' == extra" for it in extras)]
        lines += (f"Requires-Dist: app[{to}]{marker or ' ;'}{' and' * bool(marker)} extra == \"{by}\"" for by, to, marker in asked)
        return read(self.project("".join(f"{it}\n" for it in [*lines, *(f"Provides-Extra: {it}" for it in extras)]), "METADATA"))

    def test_extras_of_its_own_that_are_told(self):
        path = self.project(
            "[project]\nname = 'app'\ndependencies = ['app[a]', 'app']\n[project.optional-dependencies]\n"
            "a = ['x', 'app[nope]']\nb = ['app[a]>=2', 'y']\n"
        )
        listing = read(path)
        self.assertEqual(self.texts(listing), ["app", "x", "y ; extra == 'b'"])
        self.assertEqual([(it.what, it.place.entry, it.why) for it in listing.left_out], [
            (">=2", "project.optional-dependencies.b[0]", "of the project itself, of which only the extras are looked at"),
            ("app[nope]", "project.optional-dependencies.a[1]", "there is no extra nope"),
        ])  # fmt: skip
        path = self.project(
            "[project]\nname = 'app'\ndependencies = [\"x ; extra != 'a'\"]\noptional-dependencies = {a = [], b = ['app[a]']}\n"
        )
        why = "of the project itself, which has to be asked for by name: a marker asks where an extra is not there"
        self.assertEqual([(it.what, it.why) for it in read(path).left_out], [("app[a]", why)])

    def test_lines_of_a_text(self):
        """A requirement may go over more than one line of its text, and a fault is told at its place."""
        path = self.project('[project]\ndependencies = ["""\n  foo >=1,\r\n  <2 ;\n  os_name == \'posix\'\n""", "a\\nb"]\n')
        self.assertEqual(read(path).lines[0].text, "  foo >=1,   <2 ;   os_name == 'posix'")
        said, entry = self.fault(path.read_bytes())
        self.assertEqual((entry, said.split(",")[0]), ("project.dependencies[1]", "project.dependencies[1]"))
        self.assertEqual(said.split("\n")[-2], "a b")
        path = self.project('[project]\ndependencies = ["""foo >=1,\n<2"""]\n')
        self.assertEqual([str(it) for it in check(read(path), ENVIRONMENT, "foo 1\nfoo 2")], ["foo 1"])

    def test_requires_python(self):
        old = {**ENVIRONMENT, "python_full_version": "3.7.9", "python_version": "3.7"}
        path = self.project(PROJECT)
        listing = read(path)
        said = f"environment: Python 3.7.9 is not in >=3.8, which {path}: project.requires-python asks for"
        self.assertEqual(str(self.refused(check, listing, old, "")), said)
        self.assertEqual(str(self.refused(explain, listing, old, "")), said)
        self.assertEqual(len(check(listing, old, "", ignore_requires_python=True)), 1)
        self.assertEqual(len(explain(listing, old, "", ignore_requires_python=True)), 1)
        said = f"environments: environment 2: {said.partition(': ')[2]}"
        self.assertEqual(str(self.refused(matrix, listing, [ENVIRONMENT, old], "")), said)
        self.assertEqual(len(matrix(listing, [ENVIRONMENT, old], "", ignore_requires_python=True)), 2)
        # (as pip, by the release of an interpreter that is a pre-release)
        listing = read(self.project("[project]\nrequires-python = '>=3.14'\n"))
        early = {**ENVIRONMENT, "python_full_version": "3.14.0rc1", "python_version": "3.14"}
        self.assertEqual(check(listing, json.dumps(early), ""), [])

    def test_faults_of_requirements(self):
        for text, entry in (
            ("[project]\ndependencies = ['a', 'foo=1']\n", "project.dependencies[1]"),
            ("[project.optional-dependencies]\nx = ['foo=1']\n", "project.optional-dependencies.x[0]"),
            ("[project.optional-dependencies]\nx = [\"foo=1 ; os_name == 'nt'\"]\n", "project.optional-dependencies.x[0]"),
        ):
            said, where = self.fault(text)
            front, *_, shown, marks = said.split("\n")
            self.assertEqual((where, front.startswith(f"{entry}, byte 3, length ")), (entry, True), said)
            self.assertEqual((shown[:5], marks[:4]), ("foo=1", "   ^"))
        said, where = self.fault("[project]\ndependencies = ['a', 'foo  # c']\n")
        place = "project.dependencies[1]"
        self.assertEqual(
            (said, where), (f"{place}, byte 5, length 3\na requirement has no comment\nfoo  # c\n     ^^^", place)
        )
        said, where = self.fault("[project]\ndependencies = ['a', ' ']\n")
        self.assertEqual(
            (said, where), (f"{place}, byte 0, length 1\nan empty text is no requirement\n \n^", place)
        )
        table = "[project.optional-dependencies]\nx = [\"a\\n\", \"\\r\\nfoo=1\\r\\n\"]\n"
        said, where = self.fault(table)
        self.assertEqual(where, "project.optional-dependencies.x[1]")
        self.assertRegex(said, r"byte 3, length \d+\n.*\nfoo=1\n   \^+\Z")
        texts = self.texts(read(self.project(table.replace("foo=1", "foo"))))
        self.assertEqual(texts, ["a ; extra == 'x'", "foo ; extra == 'x'"])

    def test_places_in_requirements_of_extras(self):
        """As they were given, without what is added."""
        given = "foo @ https://e.org/x ; os_name == 'nt'"
        listing = read(self.project(f'[project.optional-dependencies]\nx = ["{given}"]\n'))
        error = self.refused(normal, listing)
        entry = "project.optional-dependencies.x[0]"
        self.assertEqual((error.text, error.entry, error.line), (given, entry, None))
        self.assertTrue(self.said(error).startswith(f"{entry}: "), error)

    def test_faults_of_tables(self):
        for text, said, entry in (
            ("[tool.x]\n", "there is no table project, and no dependency group is asked for", None),
            ("project = 1\n", "project: a table is wanted", "project"),
            ("[project]\ndependencies = 'a'\n", "project.dependencies: an array is wanted", "project.dependencies"),
            ("[project]\ndependencies = ['a', 1]\n", "project.dependencies[1]: a text is wanted", "project.dependencies[1]"),
            ("[project]\nrequires-python = 3\n", "project.requires-python: a text is wanted", "project.requires-python"),
            (
                "[project]\noptional-dependencies = []\n",
                "project.optional-dependencies: a table is wanted",
                "project.optional-dependencies",
            ),
            ("[project.optional-dependencies]\n'a b' = []\n", "'a b' is no name", 'project.optional-dependencies."a b"'),
            (
                "[project.optional-dependencies]\na-b = []\nA_b = []\n",
                "the extra a-b is there twice",
                "project.optional-dependencies.A_b",
            ),
            ("[project.optional-dependencies]\na = 'x'\n", "an array is wanted", "project.optional-dependencies.a"),
        ):
            front = f"{entry}: " if entry and not said.startswith(entry) else ""
            self.assertEqual(self.fault(text), (f"{front}{said}", entry), text)
        found, entry = self.fault("[project]\nrequires-python = '>=3.8,<x'\n")
        self.assertTrue(found.startswith("project.requires-python, byte "), found)
        self.assertEqual(entry, "project.requires-python")

    def test_long_chains_of_groups(self):
        """They take time by their length."""
        count = 5_000
        tables = "".join(f"g{at} = [{{include-group = 'g{at + 1}'}}, 'a{at}']\n" for at in range(count))
        listing = read(self.project(f"[dependency-groups]\n{tables}g{count} = ['last']\n"), groups="g0")
        self.assertEqual((len(listing.lines), listing.lines[0].text), (count + 1, "last"))

    def test_faults_of_groups(self):
        groups = ["a = [{include-group = 'b'}]", "b = ['x', {include-group = 'C_d'}]", "'c.d' = [{include-group = 'A'}]"]
        tables = "\n".join(["[dependency-groups]", *groups])
        at = 'dependency-groups."c.d"[0]'
        self.assertEqual(
            self.fault(tables, groups="a"), (f"{at}: a circle: a includes b includes c-d includes a", at)
        )
        self.assertEqual(
            self.fault(tables, groups="z"), ("there is no dependency group 'z'; there is a, b, c-d", None)
        )
        self.assertEqual(
            self.fault("[project]\n", groups="z"), ("there is no dependency group 'z'; there is none", None)
        )
        for entry, said in (
            ("{include-group = 'no'}", "there is no dependency group 'no'; there is a"),
            ("{include-group = 1}", "a text, or a table of include-group alone, is wanted"),
            ("{include-group = 'a', x = 1}", "a text, or a table of include-group alone, is wanted"),
            ("{}", "a text, or a table of include-group alone, is wanted"),
            ("1", "a text, or a table of include-group alone, is wanted"),
        ):
            where = "dependency-groups.a[0]"
            self.assertEqual(
                self.fault(f"[dependency-groups]\na = [{entry}]\n", groups="a"), (f"{where}: {said}", where)
            )
        said = "dependency-groups.A: the group a is there twice", "dependency-groups.A"
        self.assertEqual(self.fault("[dependency-groups]\na = []\nA = []\n", groups="a"), said)
        self.assertEqual(
            self.fault("[dependency-groups]\na = 1\n", groups="a")[0], "dependency-groups.a: an array is wanted"
        )
        error = self.refused(read, self.write(a="foo\n"), groups="x")
        self.assertEqual(self.said(error), "dependency groups are read of a pyproject.toml or a lock file alone")

    def test_faults_of_toml(self):
        said, _ = self.fault("[project]\r\nnamé = 'é' x\r\n")
        self.assertRegex(said, r"\Aline 2, byte \d+, length \d+\n.*\nnamé = 'é' x\n *\^\Z")
        self.assertEqual(self.refused(read, self.project("a = [\n")).path, str(self.folder / "pyproject.toml"))
        said, _ = self.fault(b"# a\n[project]\n# \xff\n")
        self.assertEqual(said, "line 3: not UTF-8 at byte 16 of the file")
        said, _ = self.fault("a = " + "[" * 100_000)
        self.assertRegex(said, r"\A(tables or arrays that are nested too deep|line \d+, .*|.*nest.*)\Z")

    def test_command_line(self):
        path = self.project(PROJECT)
        self.assertEqual(
            run("check", path, "--extra", "gui-extra", "--candidates", self.write(c="foo 1\nbaz 1\n"))[1],
            "baz 1\nfar direct\nfoo 1\n",
        )
        told = f"fowlyore: {path}: project.requires-python: requires-python >=3.8 is not looked at\n"
        self.assertEqual(run("normal", path, "--group", "test")[2][: len(told)], told)
        status, out, err = run("conflicts", path, "--group", "test", "--group", "docs")
        self.assertEqual((status, out, err), (0, "", told))
        status, out, err = run("check", path, "--python-version", "3.7", "--candidates", self.folder / "c.txt")
        said = f"fowlyore: environment: Python 3.7 is not in >=3.8, which {path}: project.requires-python asks for\n"
        self.assertEqual((status, out, err), (2, "", said))
        words = ["check", path, "--python-version", "3.7", "--candidates", self.folder / "c.txt", "--ignore-requires-python"]
        self.assertEqual(run(*words), (0, "foo 1\n", ""))
        status, out, err = run("normal", path, "--group", "no")
        self.assertEqual((status, out), (2, ""))
        self.assertEqual(err, f"fowlyore: {path}: there is no dependency group 'no'; there is docs, lint-all, test\n")

    def test_command_line_of_two(self):
        """Groups are those of the project, the other list has none."""
        path, other = self.project("[dependency-groups]\na = ['foo']\n"), self.write(a="Foo\n")
        self.assertEqual(run("same", path, other, "--group", "a"), (0, "yes\n", ""))
        self.assertEqual(run("same", other, self.folder, "--group", "a"), (0, "yes\n", ""))
        said = f"fowlyore: {other}: dependency groups are read of a pyproject.toml or a lock file alone\n"
        self.assertEqual(run("same", other, other, "--group", "a"), (2, "", said))
        self.assertEqual(run("normal", other, "--group", "a"), (2, "", said))

    def test_extras_that_are_not_there(self):
        path = self.project("[project.optional-dependencies]\na_b = []\n")
        words = ["check", path, "--candidates", self.write(a=""), "--extra", "A.b", "--extra", "c"]
        self.assertEqual(run(*words), (0, "", f"fowlyore: {path}: there is no extra c\n"))

    def test_conflicts(self):
        path = self.project("[project]\ndependencies = ['foo>=2']\noptional-dependencies = {x = ['foo<2']}\n")
        self.assertEqual(run("conflicts", path)[:2], (0, "foo project.dependencies[0],project.optional-dependencies.x[0]\n"))


def _random_marker(draw, depth):
    """A marker of a lock file, which as Python has the same meaning."""
    if depth == 0 or draw.random() < 0.3:
        return draw.choice([
            f"'{draw.choice(['a', 'b-c', 'B_C', 'd'])}' {draw.choice(['in', 'not in', 'not  in'])} {draw.choice(['extras', 'dependency_groups'])}",
            f"os_name {draw.choice(['==', '!='])} 'nt'",
        ])  # fmt: skip
    left, right = (_random_marker(draw, depth - 1) for _ in range(2))
    joined = f"{left} {draw.choice(['and', 'or'])} {right}"
    return f"({joined})" if draw.random() < 0.5 else joined


@unittest.skipUnless(HAS_TOML, "there is no tomllib and no tomli, which read TOML")
class Locks(OfToml):
    def test_lines(self):
        path = self.project(LOCK, "pylock.toml")
        listing = read(path)
        marker = "os_name == 'nt' or os_name == 'posix'"
        self.assertEqual(self.lines(listing), [(f"foo==1.5 ; {marker}", "packages[0]"), ("Bar==2.0+cpu", "packages[2]")])
        self.assertEqual(listing.left_out, (LeftOut("local", Place(str(path), entry="packages[1]"), "there is no version"),))
        self.assertEqual([(it.what, it.text, it.place.entry) for it in listing.assumed], [
            ("requires-python", ">=3.9", "requires-python"), ("environments", "os_name == 'posix'", "environments[0]"),
        ])  # fmt: skip
        candidates = fowlyore.read_candidates(path)
        self.assertEqual(candidates, [("foo", "1.5"), ("Bar", "2.0+cpu")])
        self.assertEqual([str(it) for it in check(listing, ENVIRONMENT, candidates)], ["bar 2.0+cpu", "foo 1.5"])
        self.assertEqual(self.lines(read(self.project(LOCK, "pylock.dev.toml"))), self.lines(listing))
        self.assertTrue(read(self.project("foo\n", "pylock.a.b.toml")).is_plain)

    def test_python_of_packages(self):
        """It counts where the package is asked for."""
        front = "\nrequires-python = '<3.11'\nversion ="
        text = LOCK.replace("marker = \"os_name == 'nt'", "marker = \"'e' in extras and os_name == 'nt'")
        entries = ["packages[0].requires-python", "packages[2].requires-python"]
        path = self.project(text.replace("\nversion =", front), "pylock.toml")
        both = read(path)
        self.assertEqual([it.place.entry for it in both.assumed if it.line], entries)
        older = {**ENVIRONMENT, "python_full_version": "3.10.1", "python_version": "3.10"}
        self.assertEqual([len(check(both, older, "", it)) for it in ((), ("e",))], [2, 2])
        said = f"environment: Python 3.11.7 is not in <3.11, which {path}: {entries[1]} asks for"
        self.assertEqual(str(self.refused(check, both, {**ENVIRONMENT, "os_name": "x"}, ""))[: len(said)], said)
        self.assertEqual(len(check(both, ENVIRONMENT, "", ignore_requires_python=True)), 2)
        told = [it for it in run("normal", path)[2].splitlines() if "packages[0].req" in it or "packages[2].req" in it]
        said = f"fowlyore: {path}: {entries[0]}: requires-python <3.11 is not looked at, nor is that of other lines"
        self.assertEqual(told, [said])

    def test_python_of_a_package_that_is_not_asked_for(self):
        text = self.locked("'e' in extras", "os_name == 'posix'").replace("\nname", "\nrequires-python = '<3.11'\nname", 1)
        path = self.project(text, "pylock.toml")
        listing = read(path)
        self.assertEqual([it.name for it in check(listing, ENVIRONMENT, "")], ["b"])
        self.assertEqual(len(matrix(listing, [ENVIRONMENT, WINDOWS], "")), 2)
        said = f"Python 3.11.7 is not in <3.11, which {path}: packages[0].requires-python asks for"
        self.assertEqual(str(self.refused(check, listing, ENVIRONMENT, "", "e")), f"environment: {said}")
        self.assertEqual(str(self.refused(matrix, listing, [WINDOWS], "", "e")), f"environments: environment 1: {said}")

    def test_faults(self):
        front = "lock-version = '1.0'\n[[packages]]\n"
        for text, said, entry in (
            ("", "there is no lock-version", None),
            ("lock-version = '2.0'", "lock-version: '2.0' is not 1.0", "lock-version"),
            ("lock-version = '1.0'\npackages = [1]", "packages[0]: a table is wanted", "packages[0]"),
            (f"{front}version = '1'", "packages[0]: there is no name", "packages[0]"),
            (f"{front}name = 'a b'", "packages[0]: 'a b' is no name", "packages[0]"),
            (f"{front}name = 'a'\nversion = 1", "packages[0].version: a text is wanted", "packages[0].version"),
        ):
            self.assertEqual(self.fault(text, "pylock.toml"), (f"{said}", entry), text)
        for version in ("1 ; os_name == 'nt'", "1,<2", "x", ""):
            said, entry = self.fault(f"{front}name = 'a'\nversion = \"{version}\"", "pylock.toml")
            self.assertEqual((said[:23], entry), ("packages[0].version: In", "packages[0].version"))
        for marker in ("", "x", "os_name == 'a') or (os_name == 'b'", "os_name == 'a' # c"):
            said, entry = self.fault(f"{front}name = 'a'\nversion = '1'\nmarker = \"{marker}\"", "pylock.toml")
            self.assertTrue(said.startswith("packages[0].marker, byte "), said)
            self.assertEqual(entry, "packages[0].marker")
        for read_one, input in ((read, "requirements"), (fowlyore.read_candidates, "candidates")):
            for text in (b"\xff", b"= 1", b"lock-version = '2.0'"):
                error = self.refused(read_one, self.project(text, "pylock.toml"))
                self.assertEqual(error.input, input)
                self.assertTrue(self.said(error), error)
        said, entry = self.fault("lock-version = '1.0'\nrequires-python = 'x'\n", "pylock.toml")
        self.assertEqual((said[:16], entry), ("requires-python,", "requires-python"))

    def test_command_line(self):
        path = self.project(LOCK, "pylock.toml")
        status, out, err = run("check", path, "--candidates", path, "--environment", self.environment())
        left_out = f"fowlyore: {path}: packages[1]: left out: local (there is no version)\n"
        self.assertEqual((status, out, err), (0, "bar 2.0+cpu\nfoo 1.5\n", left_out * 2))
        assumed = f"fowlyore: {path}: environments[0]: environments os_name == 'posix' is not looked at\n"
        self.assertIn(assumed, run("normal", path)[2])

    def test_environments(self):
        """One of them has to hold."""
        text = LOCK.replace('"os_name == \'posix\'"]', '"os_name == \'x\'", "sys_platform == \'linux\'"]', 1)
        path = self.project(text, "pylock.toml")
        listing = read(path)
        self.assertEqual(len(check(listing, ENVIRONMENT, "")), 2)
        said = f"environment: none of the markers holds that {path}: environments has"
        self.assertEqual(str(self.refused(check, listing, WINDOWS, "")), said)
        self.assertEqual(len(check(listing, WINDOWS, "", ignore_requires_python=True)), 2)
        said = f"environments: environment 2: {said.partition(': ')[2]}"
        self.assertEqual(str(self.refused(matrix, listing, [ENVIRONMENT, WINDOWS], "")), said)
        said, entry = self.fault("lock-version = '1.0'\nenvironments = [\"os_name\"]", "pylock.toml")
        self.assertEqual((said[:22], entry), ("environments[0], byte ", "environments[0]"))

    def locked(self, *markers, front=""):
        """A lock file of packages `a`, `b` and so on, of which each has a marker."""
        packages = (f'[[packages]]\nname = "{name}"\nversion = "1"\nmarker = "{it}"\n' for name, it in zip("abcdef", markers))
        return f'lock-version = "1.0"\n{front}{"".join(packages)}'

    def test_extras(self):
        markers = ("'X_y' in extras", "os_name == 'nt'or'x-y' not in extras", "'x.y' in extras and ('z' in extras or os_name=='posix')")
        listing = read(self.project(self.locked(*markers, front="extras = ['X.y', 'z']\n"), "pylock.toml"))
        self.assertEqual(listing.provided_extras, ("x-y", "z"))
        self.assertEqual(self.texts(listing), [
            "a==1 ; extra == 'X_y'", "b==1 ; os_name == 'nt'or extra != 'x-y'",
            "c==1 ; extra == 'x.y' and (extra == 'z' or os_name=='posix')",
        ])  # fmt: skip
        names = lambda environment, *extras: "".join(it.name for it in check(listing, environment, "", extras))
        self.assertEqual([names(ENVIRONMENT), names(ENVIRONMENT, "x_y"), names(WINDOWS, "x_y")], ["b", "ac", "ab"])
        self.assertEqual(names(WINDOWS, "X-Y", "Z"), "abc")

    def test_groups(self):
        markers = (
            "'main' in dependency_groups", "'dev' not in dependency_groups", "'Dev' in dependency_groups or os_name == 'nt'",
            "'dev' in dependency_groups and 'e' in extras",
        )  # fmt: skip
        front = "default-groups = ['main']\ndependency-groups = ['Dev', 'docs']\n"
        path = self.project(self.locked(*markers, front=front), "pylock.toml")
        names = lambda environment, *groups: "".join(it.name for it in check(read(path, groups=groups), environment, "", "e"))
        self.assertEqual([names(ENVIRONMENT), names(WINDOWS)], ["ab", "abc"])
        self.assertEqual([names(ENVIRONMENT, "DEV"), names(ENVIRONMENT, "dev", "main")], ["cd", "acd"])
        self.assertEqual(names(ENVIRONMENT, "docs"), "b")
        self.assertEqual(self.texts(read(path, groups="docs"))[0], "b==1")
        self.assertIsNone(read(path).provided_extras)
        said = "there is no dependency group 'no'; there is dev, docs, main"
        self.assertEqual(self.said(self.refused(read, path, groups="no")), said)
        words = ["--environment", self.environment(), "--candidates", self.write(c="b 1\n")]
        self.assertEqual(run("check", path, "--group", "docs", *words), (0, "b 1\n", ""))
        said, entry = self.fault("lock-version = '1.0'\ndefault-groups = ['a b']", "pylock.toml")
        self.assertEqual((said, entry), ("default-groups[0]: 'a b' is no name", "default-groups[0]"))

    def test_a_group_at_once_behind_a_word(self):
        """As an extra may stand there, though none may in a requirement."""
        markers = ("os_name == 'nt'or'dev' in dependency_groups", "os_name == 'nt'or'dev'not in dependency_groups")
        path = self.project(self.locked(*markers, front="dependency-groups = ['dev']\n"), "pylock.toml")
        found = [[it.name for it in check(read(path, groups=groups), ENVIRONMENT, "")] for groups in ("dev", ())]
        self.assertEqual(found, [["a"], ["b"]])

    def test_random_markers(self):
        """As sets are asked by Python itself."""
        for seed in range(ROUNDS):
            draw = random.Random(seed)
            groups, extras = (draw.sample(("a", "b-c", "d"), draw.randrange(1, 3)) for _ in range(2))
            environment = draw.choice([ENVIRONMENT, WINDOWS])
            sets = {"extras": extras, "dependency_groups": groups}
            markers = [_random_marker(draw, 3) for _ in range(4)]
            front = "dependency-groups = ['a', 'b-c', 'd']\n"
            listing = read(self.project(self.locked(*markers, front=front), "pylock.toml"), groups=groups)
            wanted = [eval(it.replace("B_C", "b-c"), {**sets, "os_name": environment["os_name"]}) for it in markers]
            found = [it.name for it in check(listing, environment, "", extras)]
            self.assertEqual(found, [name for name, holds in zip("abcd", wanted) if holds], (seed, markers))

    def test_faults_of_sets(self):
        for marker, start, end in (
            ("extras == 'x'", 0, 6), ("os_name == 'nt' and 'x' == extras", 27, 33), ("'x' in dependency_groups in extras", 28, 34),
            ("extras in 'x'", 0, 6), ("'x' in extras and x == 'y'", 18, 19), ("'a' in dependency_groups or 'x' in", 34, 34),
        ):  # fmt: skip
            path = self.project(self.locked(marker), "pylock.toml")
            error = self.refused(read, path)
            self.assertEqual((error.entry, error.text, error.start), ("packages[0].marker", marker, start), error)
            self.assertTrue(error.end == end or marker.startswith("'"), error)

    def environment(self):
        path = self.folder / "environment.json"
        path.write_text(json.dumps(ENVIRONMENT))
        return path


class WithoutToml(OfToml):
    def test_what_is_missing(self):
        original = importlib.import_module

        def import_module(name, *more):
            if name in ("tomllib", "tomli"):
                raise ModuleNotFoundError(name)
            return original(name, *more)

        with mock.patch.object(importlib, "import_module", import_module):
            said = "to read TOML takes Python 3.11 or later, or the package tomli (pip install tomli)"
            self.assertEqual(self.said(self.refused(read, self.project("[project]\n"))), said)
            self.assertEqual(self.said(self.refused(read, self.project("", "pylock.toml"))), said)
            status, out, err = run("check", self.project("[project]\n"))
        self.assertEqual((status, out), (2, ""))
        self.assertEqual(err, f"fowlyore: {self.folder}{os.sep}pyproject.toml: {said}\n")


if __name__ == "__main__":
    unittest.main()
