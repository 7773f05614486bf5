"""What docs/DIFFERENCES.md says of single inputs: how fowlyore answers, and packaging 26.2 where it is."""

import pathlib
import re
import unittest
import warnings

import fowlyore
import fowlyore.utils
import fowlyore.version

from . import beside

PAGE = pathlib.Path(__file__).resolve().parents[2] / "docs" / "DIFFERENCES.md"
ROW = re.compile(r"\| (`.*?`) \| (.+?) \| (.+?) \| .+ \|")
# What values are called in the tables.
WORDS = {
    "Version": "a version", "Requirement": "a requirement", "Marker": "a marker", "Specifier": "a specifier",
    ("tuple", 4): "a wheel's parts", ("tuple", 2, "Version"): "an archive's parts",
}  # fmt: skip


def rows():
    """Inputs, with what is said that packaging answers to them, and fowlyore."""
    text = PAGE.read_text(encoding="utf-8").partition("## Python's packaging\n")[2]
    for table in re.findall(r"^\| Input \|.*\n\|[-|]+\|\n((?:\|.*\n)+)", text, re.M):
        for line in table.splitlines():
            inputs, theirs, ours = ROW.fullmatch(line).groups()
            for it in re.findall(r"`(.+?)`(?:, |$)", inputs):
                yield it, theirs, ours


def named(value):
    """What a value is called in the tables."""
    kind = type(value).__name__
    of = (kind, len(value)) if isinstance(value, tuple) else kind
    if of == ("tuple", 2):
        of = (*of, type(value[1]).__name__)
    return WORDS.get(of, repr(value))


def answer(text, names):
    try:
        return named(eval(text, dict(names)))
    except Exception as error:
        return type(error).__name__


def said(cell, found):
    """Whether a cell begins with what was found, and says more at most behind a comma, a colon or a word."""
    return re.match(rf"`?{re.escape(found)}`?(?:$|[,: ])", cell) is not None


class Differences(unittest.TestCase):
    def test_there_are_rows(self):
        kinds = {(theirs, ours) for _, theirs, ours in rows()}
        self.assertGreater(len(kinds), 15)
        self.assertFalse([it for it in kinds if it[0] == it[1]])

    def test_here(self):
        names = {**vars(fowlyore), **vars(fowlyore.utils), **vars(fowlyore.version)}
        with warnings.catch_warnings():
            warnings.simplefilter("ignore", fowlyore.MarkerInURLWarning)
            for text, _, ours in rows():
                self.assertTrue(said(ours, answer(text, names)), (text, ours, answer(text, names)))

    @beside.where_it_is
    def test_by_packaging(self):
        names = {}
        for it in vars(beside.packaging()).values():
            names.update(vars(it))
        for text, theirs, _ in rows():
            self.assertTrue(said(theirs, answer(text, names)), (text, theirs, answer(text, names)))

    def test_ranges_are_no_answer_to_what_is_accepted(self):
        """Why there is no `is_unsatisfiable`."""
        versions = ["0.dev0", "0", "1", "1.0", "1+x"]
        rows = [("==1,==1+x", True, ["1+x"]), ("===1,===1.0", False, []), ("<0.dev0", False, [])]
        for text, is_empty, accepted in rows:
            specifiers = fowlyore.SpecifierSet(text)
            found = specifiers.is_empty(), list(specifiers.filter(versions))
            self.assertEqual(found, (is_empty, accepted), text)
