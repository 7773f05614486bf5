"""The examples of the documentation."""

import doctest
import importlib
import inspect
import os
import pathlib
import pkgutil
import re
import subprocess
import sys
import typing
import unittest

import fowlyore
from fowlyore import _native, explanations
from fowlyore.__main__ import STRICT

TOP = pathlib.Path(__file__).resolve().parents[2]
PAGE = TOP / "docs" / "PYTHON.md"
PAGES = [PAGE, TOP / "README.md"]


def load_tests(loader, tests, pattern):
    """A test for each docstring with examples, and one for each page."""
    for it in pkgutil.iter_modules(fowlyore.__path__):
        module = importlib.import_module(f"fowlyore.{it.name}")
        tests.addTests(doctest.DocTestSuite(module, optionflags=doctest.ELLIPSIS))
    tests.addTests(doctest.DocTestSuite(fowlyore, optionflags=doctest.ELLIPSIS))
    for it in PAGES:
        tests.addTests(doctest.DocFileSuite(str(it), module_relative=False, encoding="utf-8", optionflags=doctest.ELLIPSIS))
    return tests


class Documented(unittest.TestCase):
    def test_all_that_is_exported(self):
        for name in fowlyore.__all__:
            self.assertTrue(getattr(fowlyore, name).__doc__, name)

    def test_pages_have_examples(self):
        for it in PAGES:
            self.assertTrue(doctest.DocTestParser().get_examples(it.read_text(encoding="utf-8")), it)

    def test_command_lines(self):
        """The lines `$ fowlyore ..` of README.md, and what they write."""
        found = re.findall(r"^    \$ (fowlyore .*)\n((?:    (?!\$ ).*\n)*)", PAGES[1].read_text(encoding="utf-8"), re.M)
        self.assertTrue(found)
        for line, written in found:
            words = [sys.executable, "-m", "fowlyore", *line.split()[1:]]
            how = {"cwd": TOP, "env": {**os.environ, "PYTHONPATH": str(TOP / "python")}, "stdin": subprocess.DEVNULL}
            ran = subprocess.run(words, stdout=subprocess.PIPE, stderr=subprocess.STDOUT, **how)
            self.assertEqual(ran.stdout.decode(), re.sub("^    ", "", written, flags=re.M), line)

    def test_variables_of_the_environment(self):
        sources = "".join(it.read_text(encoding="utf-8") for it in pathlib.Path(fowlyore.__path__[0]).glob("*.py"))
        found = set(re.findall(r"environ(?:\.get\(|\[)\"(\w+)\"", sources))
        self.assertEqual(found, {"FOWLYORE_EXTENSION", "FOWLYORE_LIBRARY", "NO_COLOR", "TERM"})
        for it in found:
            self.assertIn(f"`{it}`", PAGE.read_text(encoding="utf-8"))

    def test_processes(self):
        """What the child of a fork must not call."""
        text = " ".join(PAGE.read_text(encoding="utf-8").split())
        found = re.search(r"After a fork of a process with threads the child must not call (- .*)? This holds for forks", text)[1]
        listed = [r"anything, .* `malloc` .*", r"`installed\(\)`, or `check`, .* without candidates, .*", r"`import fowlyore`, .*"]
        self.assertRegex(found, "^- " + " - ".join(listed))

    def test_statuses(self):
        said = re.search(r"The status is (.*?)\. ", PAGE.read_text(encoding="utf-8"), re.S)[1]
        self.assertEqual(re.findall(r"\b\d+\b", said), [str(it) for it in range(STRICT + 1)])


def functions_of(value):
    """What is written in the package of a function or of a class's methods and properties."""
    kind = value if isinstance(value, type) else type(value)
    found = [value] if inspect.isfunction(value) else vars(kind).values()
    for it in found:
        it = getattr(it, "fget", None) or getattr(it, "func", it)
        if inspect.isfunction(it) and it.__code__.co_filename.startswith(fowlyore.__path__[0]):
            yield it


class Typed(unittest.TestCase):
    def test_all_that_is_exported(self):
        seen = set()
        for value in (getattr(fowlyore, it) for it in fowlyore.__all__):
            for it in functions_of(value):
                arguments = [name for name in inspect.signature(it).parameters if name != "self"]
                self.assertLessEqual({*arguments, "return"}, set(it.__annotations__), it.__qualname__)
                seen.add(it.__qualname__)
        wanted = {"check", "Version.__repr__", "Specifier.contains", "Requirement.specifier"}
        # (these are the extension's own where it is)
        wanted |= {"Version.__init__", "Version.release"} if _native.extension is None else set()
        self.assertLessEqual(wanted, seen)
        self.assertTrue(pathlib.Path(fowlyore.__path__[0], "py.typed").exists())

    def test_each_type_is_there(self):
        """Who reads the types of arguments is given them, also by Python 3.8."""
        for value in (explanations.check_explained, explanations.explain, *(getattr(fowlyore, it) for it in fowlyore.__all__)):
            for it in functions_of(value):
                self.assertIn("return", typing.get_type_hints(it), it.__qualname__)
