"""Interpreters whose `python_full_version` isn't a release: a pre-release, or a build that isn't tagged."""

import importlib.util
import io
import json
import pathlib
import platform
import tempfile
import unittest
from contextlib import redirect_stderr, redirect_stdout
from unittest import mock

import fowlyore
from fowlyore import Marker, Requirement
from fowlyore.__main__ import main
from fowlyore.explanations import explain
from fowlyore.markers import environment_json, full_version_read

# `python_version` is 3.14 on each of them (PEP 508, Environment Markers).
INTERPRETERS = ["3.14.0a1", "3.14.0rc1", "3.14.0", "3.14.0+"]
# Comparisons with `python_version`, by whether they hold on all of these.
OF_SHORT = {
    "< '3.14'": False, "< '3.15'": True, "< '3.13'": False, "<= '3.14'": True, "<= '3.13'": False, "<= '3.15'": True,
    "== '3.14'": True, "== '3.14.*'": True, "== '3.14.0'": True, "== '3.13'": False, "!= '3.14'": False, "!= '3.13'": True,
    "!= '3.14.*'": False, ">= '3.14'": True, ">= '3.13'": True, ">= '3.15'": False, "> '3.14'": False, "> '3.13'": True,
    "~= '3.14'": True, "~= '3.13'": True, "~= '3.15'": False, "in '3.13 3.14'": True, "in '3.13 3.15'": False,
    "not in '3.13 3.14'": False, "not in '3.13 3.15'": True,
}  # fmt: skip
# Comparisons with `python_full_version`: whether they hold on each interpreter by PEP 440, which compares `3.14.0+` as the local
# version 3.14.0+local, and by PEP 508, whose `in` looks for one text in another.
OF_FULL = {
    "< '3.14'": (False, False, False, False),
    "< '3.14.1'": (True, True, True, True),
    "<= '3.14.0'": (True, True, True, True),
    "<= '3.13'": (False, False, False, False),
    "== '3.14.0'": (False, False, True, True),
    "== '3.14.*'": (True, True, True, True),
    "== '3.14.1'": (False, False, False, False),
    "!= '3.14.0'": (True, True, False, False),
    "!= '3.14.1'": (True, True, True, True),
    "!= '3.14.*'": (False, False, False, False),
    ">= '3.14.0'": (False, False, True, True),
    ">= '3.13.9'": (True, True, True, True),
    ">= '3.14.1'": (False, False, False, False),
    "> '3.13'": (True, True, True, True),
    "> '3.14'": (False, False, False, False),
    "~= '3.14.0'": (False, False, True, True),
    "~= '3.13'": (True, True, True, True),
    "in '3.14.0 3.14.1'": (False, False, True, False),
    "in '3.13.0'": (False, False, False, False),
    "not in '3.14.0 3.14.1'": (True, True, False, True),
    "not in '3.13.0'": (True, True, True, True),
}
# What is otherwise here, since it is compared with the release (docs/DIFFERENCES.md).
OTHERWISE = {(it, full) for it in OF_FULL for full in ("3.14.0a1", "3.14.0rc1") if it.endswith(" '3.14.0'") and it[0] != "<"}
OTHERWISE |= {(f"{it} '3.14.0 3.14.1'", full) for it in ("in", "not in") for full in ("3.14.0a1", "3.14.0rc1", "3.14.0+")}


def environment_of(full, short="3.14"):
    """This interpreter's values, but for its version."""
    return {**fowlyore.default_environment(), "python_full_version": full, "python_version": short}


def running(full):
    """Has this interpreter report another version."""
    told = {"python_version": full, "python_version_tuple": tuple(full.split(".", 2))}
    return mock.patch.multiple(platform, **{name: lambda it=it: it for name, it in told.items()})


def rows_by(call, marker):
    """Whether a line with a marker applies, as a function on lists has it."""
    return [str(it) for it in call(f"a ; {marker}")] == ["a 1"]


class Compared(unittest.TestCase):
    def test_python_version(self):
        for full in INTERPRETERS:
            environment = environment_of(full)
            for text, wanted in OF_SHORT.items():
                self.assertIs(Marker(f"python_version {text}").evaluate(environment), wanted, (full, text))

    def test_python_full_version(self):
        for text, each in OF_FULL.items():
            for full, wanted in zip(INTERPRETERS, each):
                found = Marker(f"python_full_version {text}").evaluate(environment_of(full))
                self.assertIs(found, wanted != ((text, full) in OTHERWISE), (full, text))

    def test_values_before_operators(self):
        for full in INTERPRETERS:
            for text, wanted in (("'3.14' <= python_version", True), ("'3.14' > python_version", False)):
                self.assertIs(Marker(text).evaluate(environment_of(full)), wanted, (full, text))


class Faces(unittest.TestCase):
    """Each that is handed an environment's values, or takes those of the running interpreter."""

    def test_given_values(self):
        for full in INTERPRETERS:
            given = environment_of(full)
            calls = [
                lambda line: fowlyore.check(line, given, {"a": "1"}),
                lambda line: fowlyore.matrix(line, [given], {"a": "1"})[0],
                lambda line: fowlyore.matrix_texts(line, [given], {"a": "1"})[0].splitlines(),
            ]
            for text, wanted in OF_SHORT.items():
                marker = f"python_version {text}"
                self.assertEqual([rows_by(call, marker) for call in calls], [wanted] * 3, (full, text))
                self.assertIs(Requirement(f"a ; {marker}").marker.evaluate(given), wanted, (full, text))
            self.assertEqual([it.name for it in explain("a ; python_version >= '3.14'", given, "")], ["a"], full)
            self.assertEqual(explain("a ; python_version < '3.14'", given, ""), [], full)

    def test_the_running_interpreter(self):
        for full in INTERPRETERS:
            with running(full):
                told = fowlyore.default_environment()
                self.assertEqual((told["python_full_version"], told["python_version"]), (full, "3.14"))
                for text, wanted in OF_SHORT.items():
                    marker = f"python_version {text}"
                    self.assertIs(Marker(marker).evaluate(), wanted, (full, text))
                    found = rows_by(lambda line: fowlyore.check(line, candidates={"a": "1"}), marker)
                    self.assertIs(found, wanted, (full, text))

    def test_the_command_line(self):
        with tempfile.TemporaryDirectory() as folder:
            asked, offered = pathlib.Path(folder, "asked.txt"), pathlib.Path(folder, "offered.txt")
            asked.write_text("a ; python_version >= '3.14'\nb ; python_version < '3.14'\nc ; python_version == '3.14'\n")
            offered.write_text("a 1\nb 1\nc 1\n")
            words = ["check", str(asked), "--candidates", str(offered)]
            for full in INTERPRETERS:
                with running(full):
                    self.assertEqual(self.run_of(words), (0, "a 1\nc 1\n"), full)
            for full in INTERPRETERS[:3]:
                self.assertEqual(self.run_of([*words, "--python-version", full]), (0, "a 1\nc 1\n"), full)
            self.assertEqual(self.run_of([*words, "--python-version", "3.13.1"]), (0, "b 1\n"))
            self.assertEqual(self.run_of([*words, "--python-version", "three"]), (2, ""))

    def run_of(self, words):
        out = io.StringIO()
        with redirect_stdout(out), redirect_stderr(io.StringIO()):
            status = main(words)
        return status, out.getvalue()

    def test_texts_are_handed_over_as_they_are(self):
        """As `reqs check` reads them."""
        text = json.dumps(environment_of("3.14.0rc1"))
        with tempfile.TemporaryDirectory() as folder:
            path = pathlib.Path(folder, "environment.json")
            path.write_text(text)
            for given in (text, text.encode(), path):
                lines = ["a ; python_version >= '3.14'", "b ; python_version < '3.14'"]
                self.assertEqual([it.name for it in fowlyore.check(lines, given, "")], ["b"])


class Handed(unittest.TestCase):
    """The version that the library is handed."""

    ROWS = [
        ("3.14.0a1", "3.14", "3.14.0"), ("3.14.0rc1", "3.14", "3.14.0"), ("3.14.0b2.post1", "3.14", "3.14.0"),
        ("3.14.0.dev3", "3.14", "3.14.0"), ("3.14.0a0+", "3.14", "3.14.0"), ("3.14.0+", "3.14", "3.14.0"),
        ("3.14.0+local", "3.14", "3.14.0"), ("3.14.0.post1+x", "3.14", "3.14.0.post1"), ("3.14rc1", "3.14", "3.14"),
        # as they are
        ("3.14.0", "3.14", "3.14.0"), ("3.14.0.post1", "3.14", "3.14.0.post1"), ("3.14.0", "3.13", "3.14.0"),
        ("3.14.0rc1", "3.13", "3.14.0rc1"), ("3.14.0rc1", "3.14.0", "3.14.0rc1"), ("3.14.0rc1", "3.14.0rc1", "3.14.0rc1"),
        ("3.14.0rc1", "3", "3.14.0rc1"), ("1!3.14.0rc1", "3.14", "1!3.14.0rc1"), ("3.14.0rc1", None, "3.14.0rc1"),
        ("three", "3.14", "three"), ("", "3.14", ""), ("3.14.0rc1+", "3.13", "3.14.0rc1+local"),
    ]  # fmt: skip

    def test_each(self):
        for full, short, wanted in self.ROWS:
            self.assertEqual(full_version_read(full, short), wanted, (full, short))
            given = {**environment_of(full, short), "more": "3.14.0rc1"}
            told = {**environment_of(full, short), "python_full_version": wanted}
            self.assertEqual(json.loads(environment_json(given)), told, (full, short))
            self.assertEqual(given["python_full_version"], full)

    def test_values_that_are_no_texts(self):
        for value in (None, 3.14, ["3.14.0rc1"]):
            self.assertEqual(json.loads(environment_json({"python_full_version": value})), {"python_full_version": value})

    def test_the_script_writes_the_same(self):
        """`examples/installed.py`, whose environments the program is given."""
        path = pathlib.Path(__file__).resolve().parents[2] / "examples" / "installed.py"
        spec = importlib.util.spec_from_file_location("installed_script", path)
        script = importlib.util.module_from_spec(spec)
        spec.loader.exec_module(script)
        for full in [*INTERPRETERS, "3.14.0.dev3", "3.14.0a0+", "3.14.0+local", "3.14.0rc1+", "3.15.0a2+heads.main"]:
            said = io.StringIO()
            with running(full), redirect_stderr(said):
                written, given = script.environment(), fowlyore.default_environment()
            self.assertEqual(written, json.loads(environment_json(given)), full)
            self.assertEqual(said.getvalue() == "", full == "3.14.0", full)


if __name__ == "__main__":
    unittest.main()
