"""Specifiers, by PEP 440."""

import copy
import enum
import itertools
import subprocess
import sys
import unittest
import weakref

from fowlyore import InvalidSpecifier, InvalidVersion, Specifier, SpecifierSet, Version

VERSIONS = "0.9 1.0.dev1 1.0a1 1.0rc2 1.0 1.0+local 1.0.post1 1.0.1 1.1.dev0 1.1 1.4.5 1.5a0 2.0 2!1.0".split()
# For each specifier what it takes of these (PEP 440, Version specifiers), pre-releases too.
TAKEN = {
    "==1.0": "1.0 1.0+local",
    "==1.0+local": "1.0+local",
    "==1.0.*": "1.0.dev1 1.0a1 1.0rc2 1.0 1.0+local 1.0.post1 1.0.1",
    "!=1.*": "0.9 2.0 2!1.0",
    "~=1.4.0": "1.4.5",
    "~=1.0rc1": "1.0rc2 1.0 1.0+local 1.0.post1 1.0.1 1.1.dev0 1.1 1.4.5 1.5a0",
    "<1.0": "0.9",
    "<1.0rc1": "0.9 1.0.dev1 1.0a1",
    "<=1.0": "0.9 1.0.dev1 1.0a1 1.0rc2 1.0 1.0+local",
    ">1.0": "1.0.1 1.1.dev0 1.1 1.4.5 1.5a0 2.0 2!1.0",
    ">=1.1,!=1.4.5,<2": "1.1 1.5a0",
    "===1.0": "1.0",
    "": " ".join(VERSIONS),
}


class Taking(unittest.TestCase):
    def test_each(self):
        for text, taken in TAKEN.items():
            specifiers = SpecifierSet(text)
            for version in VERSIONS:
                wanted = version in taken.split()
                self.assertEqual(specifiers.contains(version, prereleases=True), wanted, (text, version))
                self.assertEqual(specifiers.contains(Version(version), prereleases=True), wanted, (text, version))

    def test_filter_takes_the_same(self):
        for text, taken in TAKEN.items():
            self.assertEqual(list(SpecifierSet(text).filter(VERSIONS, prereleases=True)), taken.split(), text)
            versions = [Version(it) for it in VERSIONS]
            found = SpecifierSet(text).filter(iter(versions), prereleases=True)
            self.assertEqual([str(it) for it in found], taken.split(), text)

    def test_one_specifier_takes_the_same(self):
        for text, taken in TAKEN.items():
            if text and "," not in text:
                self.assertEqual(list(Specifier(text).filter(VERSIONS, prereleases=True)), taken.split(), text)

    def test_spellings_and_blanks(self):
        self.assertEqual(list(SpecifierSet(">=1").filter([" 1.0 ", "v2\n", "0.1"])), [" 1.0 ", "v2\n"])

    def test_no_versions(self):
        """They are accepted where there is no specifier alone."""
        texts = ["", "x", "1\n2", "\ud800", "x" * 5000]
        for it in (SpecifierSet(">=1"), SpecifierSet(">=1,<3"), Specifier(">=1"), SpecifierSet("")):
            accepts = str(it) == ""
            for text in texts:
                self.assertIs(it.contains(text), accepts, (it, text))
                self.assertIs(it.contains(text, prereleases=False), accepts, (it, text))
            self.assertEqual(list(it.filter([*texts, "1.0"])), [*texts, "1.0"] if accepts else ["1.0"])
            self.assertEqual(list(it.filter([*texts, "2rc1"])), [*texts, "2rc1"] if accepts else ["2rc1"])
            self.assertEqual(list(it.filter(["x", "2rc1", "1.0"])), ["x", "1.0"] if accepts else ["1.0"])
            for call in (it.contains, lambda version: it.filter(["1.0", version])):
                with self.assertRaises(TypeError):
                    call(1)

    def test_versions_that_are_not_read(self):
        """They have too large numbers, or other white space: it is told that they can't be read."""
        for it in (SpecifierSet(">=1"), Specifier(">=1"), SpecifierSet("")):
            for text in (str(2**64), f" 1.0.dev{2 ** 64}\n", f"1!{2 ** 64}rc1+x", "1.0\v", "\u00a01.0"):
                for call in (it.contains, lambda version: it.filter(["1.0", version])):
                    with self.assertRaises(InvalidVersion, msg=(it, text)):
                        call(text)
            for text in (f"x{2 ** 64}", f"1.{2 ** 64}.*", f"1\n{2 ** 64}"):
                self.assertIs(it.contains(text), str(it) == "", (it, text))


class Prereleases(unittest.TestCase):
    def test_detected(self):
        for text, wanted in (("<1.0rc1", True), ("!=1.0rc1", False), ("==1.*", False), ("~=1.0.dev1", True), (">=1", False)):
            self.assertIs(Specifier(text).prereleases, wanted, text)
            self.assertIs(SpecifierSet(text).prereleases, True if wanted else None, text)
        rows = [("", None), (">2", None), (">=1,<3", None), (">=1,<3rc1", True), (">=1rc1,!=2", True)]
        for text, wanted in rows:
            self.assertIs(SpecifierSet(text).prereleases, wanted, text)
            for said in (True, False):
                self.assertIs(SpecifierSet(text, prereleases=said).prereleases, said, text)
        self.assertIs(SpecifierSet([Specifier(">=1", prereleases=True), "<3"]).prereleases, True)
        self.assertIsNone(SpecifierSet([Specifier(">=1rc1", prereleases=False), "<3"]).prereleases)

    def test_set(self):
        specifiers = SpecifierSet(">=1")
        self.assertIn("2.0a1", specifiers)
        specifiers.prereleases = False
        self.assertNotIn("2.0a1", specifiers)
        self.assertEqual(repr(specifiers), "<SpecifierSet('>=1', prereleases=False)>")
        self.assertNotIn("1.0a1", Specifier(">=1.0a1", prereleases=False))
        specifiers.prereleases = None
        self.assertIn("2.0a1", specifiers)

    def test_set_on_a_member(self):
        """What is set on a member counts from then on, also where the list was asked before."""
        specifiers = SpecifierSet(">=1,<3")
        self.assertIsNone(specifiers.prereleases)
        member = next(iter(specifiers))
        for said, wanted, taken in ((True, True, ["2a1", "2"]), (False, None, ["2"]), (None, None, ["2"])):
            member.prereleases = said
            self.assertIs(specifiers.prereleases, wanted)
            self.assertEqual(list(specifiers.filter(["2a1", "2"])), taken)

    def test_contained(self):
        """A pre-release that is accepted is, unless `prereleases` is False."""
        rows = [
            # a specifier, a pre-release that it accepts, and one that it doesn't
            (">=1", "2.0a1", "0.1a1"), ("<3", "1rc2", "9a1"), (">2", "2.1.dev1", "0.1a1"),
            (">=1.0a1", "1.0a1", "0.1a1"), ("!=2.0a1", "1.0a1", "2.0a1"),
        ]  # fmt: skip
        kinds, flags = (Specifier, SpecifierSet), (None, True, False)
        for (text, early, other), kind, said, given in itertools.product(rows, kinds, flags, flags):
            it, admits = kind(text, prereleases=said), (said if given is None else given) is not False
            found = [it.contains(version, given) for version in (early, other, "2.5")]
            self.assertEqual(found, [admits, False, True], (kind, text, said, given))
            if given is None:
                self.assertIs(early in it, admits)

    def test_what_counts_as_false(self):
        """No pre-release is let in by it, as by False."""
        for kind, said in itertools.product((Specifier, SpecifierSet), (0, 0.0, "")):
            self.assertFalse(kind(">=1").contains("2rc1", prereleases=said))
            self.assertNotIn("2rc1", kind(">=1", prereleases=said))
            self.assertTrue(kind(">=1").contains("2", prereleases=said))

    def test_filtered(self):
        rows = [
            (Specifier, ">=1", None, ["1.0", "2.0a1"], ["1.0"]),
            (Specifier, ">=1", None, ["0.9", "2.0a1"], ["2.0a1"]),
            (Specifier, ">=1", False, ["0.9", "2.0a1"], []),
            (SpecifierSet, ">=1", None, ["0.9", "2.0a1"], ["2.0a1"]),
            (SpecifierSet, ">=1,<3", None, ["0.9", "2.0a1", "3"], ["2.0a1"]),
            (SpecifierSet, ">=1,<3", None, ["2.0a1", "1", "2.0a2"], ["1"]),
            (SpecifierSet, ">=1,<3", False, ["0.9", "2.0a1", "3"], []),
            (SpecifierSet, ">=1.0a1", None, ["1.0", "2.0a1"], ["1.0", "2.0a1"]),
            (SpecifierSet, ">=1.0a1", False, ["1.0", "2.0a1"], ["1.0"]),
            (SpecifierSet, "", None, ["1.0", "2.0a1"], ["1.0"]),
            (SpecifierSet, "", None, ["2.0a1"], ["2.0a1"]),
            (SpecifierSet, "", False, ["2.0a1"], []),
        ]
        for kind, text, prereleases, given, wanted in rows:
            self.assertEqual(list(kind(text).filter(given, prereleases)), wanted, (kind, text, prereleases))
            if prereleases is not None:
                said, other = kind(text, prereleases), kind(text, not prereleases)
                self.assertEqual(list(said.filter(given)), wanted, (kind, text, prereleases))
                self.assertEqual(list(other.filter(given, prereleases)), wanted, (kind, text, prereleases))

    def test_filtered_by_a_key(self):
        items = [{"version": it} for it in ("0.9", "1.0", "2.0a1", "x")]
        for it in (Specifier(">=1"), SpecifierSet(">=1"), SpecifierSet(">=1,<3")):
            self.assertEqual(list(it.filter(items, key=lambda item: item["version"])), items[1:2])
            early = it.filter(iter(items[:3]), True, lambda item: Version(item["version"][:1] + "rc1"))
            self.assertEqual(list(early), items[2:3])
            asked = []
            list(it.filter(items, key=lambda item: asked.append(item) or item["version"]))
            self.assertEqual(asked, items)

    def test_installed(self):
        for said, given in itertools.product((None, True, False), repeat=2):
            specifiers = SpecifierSet(">=1,<2", prereleases=said)
            self.assertTrue(specifiers.contains("1.5a1", given, installed=True))
            self.assertFalse(specifiers.contains("2.5a1", given, installed=True))
            self.assertTrue(specifiers.contains("1.5", given, installed=True))
        self.assertFalse(SpecifierSet(">=1.0").contains("1.0a1", prereleases=True, installed=True))


class Values(unittest.TestCase):
    def test_texts(self):
        specifier = Specifier(" ~=  1.4-Alpha ")
        self.assertEqual((specifier.operator, specifier.version, str(specifier)), ("~=", "1.4-Alpha", "~=1.4-Alpha"))
        self.assertEqual(repr(specifier), "<Specifier('~=1.4-Alpha')>")
        self.assertEqual(str(SpecifierSet("<2, >= 1.0,")), "<2,>=1.0")

    def test_equal(self):
        alone = ["~=1.0", "==1.*", "==1.0.*", "!=1", "===1", "===1.0"]
        groups = [["==1", "==1.0", "== v1.0.0"], ["~=1.0.0", "~= 1.0.0"], *([it] for it in alone)]
        for left, right in itertools.product(groups, repeat=2):
            for one, other in itertools.product(left, right):
                self.assertEqual(Specifier(one) == Specifier(other), left is right, (one, other))
                self.assertEqual(Specifier(one) == other, left is right, (one, other))
                if left is right:
                    self.assertEqual(hash(Specifier(one)), hash(Specifier(other)))
        self.assertNotEqual(Specifier("==1"), "no specifier")
        self.assertNotEqual(Specifier("==1"), 1)
        self.assertEqual(SpecifierSet(">=1,<2"), "<2.0,>=1")
        self.assertEqual(SpecifierSet("==1"), Specifier("==1.0"))

    def test_equal_without_comparing_texts_with_bytes(self):
        """Of which Python warns by `-b`."""
        code = "from fowlyore import Specifier\nassert all(Specifier(f'{it}1.*') != Specifier(f'{it}1') for it in ('==', '!='))"
        self.assertEqual(subprocess.run([sys.executable, "-bb", "-B", "-c", code]).returncode, 0)

    def test_sets(self):
        both = SpecifierSet(">=1") & SpecifierSet("<2", prereleases=True) & "!=1.5"
        self.assertEqual((len(both), both.prereleases), (3, True))
        self.assertEqual(set(both), {Specifier(">=1"), Specifier("<2"), Specifier("!=1.5")})
        self.assertEqual(SpecifierSet(set(both)), both)
        with self.assertRaises(ValueError):
            both & SpecifierSet("", prereleases=False)
        with self.assertRaises(TypeError):
            both & 1

        class Own(SpecifierSet):
            def __and__(self, other):
                return super().__and__(other)

        wanted = SpecifierSet(">=1,<2")
        for kind in (Own, type("Another", (SpecifierSet,), {})):
            one, other = kind(">=1"), kind("<2")
            for _ in range(2):
                self.assertEqual((type(one & other), one & other, one & "<2"), (SpecifierSet, wanted, wanted))
                # (once its members are made too)
                self.assertEqual((len(one), len(other)), (1, 1))

    def test_made_once(self):
        """So that nothing keeps what was known of other specifiers, as whether one names a pre-release."""
        for kind in (Specifier, SpecifierSet):
            it, both = kind(">=1.0rc1"), SpecifierSet(">=1.0rc1") & ""
            for made, text in ((it, "<2"), (it, "no specifier"), (both, "<2"), (both, ["<2"])):
                with self.assertRaisesRegex(TypeError, "^specifiers are made once$"):
                    made.__init__(text)
                self.assertEqual((str(made), made.prereleases, "2" in made), (">=1.0rc1", True, True))
                self.assertEqual((made, hash(made)), (type(made)(">=1.0rc1"), hash(type(made)(">=1.0rc1"))))
            again = kind.__new__(kind)
            with self.assertRaises(InvalidSpecifier):
                again.__init__("no specifier")
            again.__init__("<2")
            self.assertEqual(again, kind("<2"))

    def test_members_in_their_order(self):
        written = [">=1", "!=1.5", "<2", "!= 1.5.0", "==1.*", "!=1.5"]
        texts = [it.replace(" ", "") for it in written]
        for given in (",".join(written), written, map(Specifier, written)):
            it = SpecifierSet(given)
            for _ in range(2):
                self.assertEqual(([str(member) for member in it], len(it)), (texts, 6))
                self.assertEqual(str(it), "!=1.5,<2,==1.*,>=1")
        self.assertEqual([str(it) for it in SpecifierSet(">=1") & "<2" & "!=1.5"], [">=1", "<2", "!=1.5"])

    def test_equal_where_texts_sort_in_another_order(self):
        one, other = SpecifierSet("!=1.00,!=1.0.1"), SpecifierSet("!=1,!=1.0.1")
        self.assertEqual((one, hash(one)), (other, hash(other)))
        self.assertNotEqual(one, SpecifierSet("!=1"))

    @unittest.skipIf(sys.version_info < (3, 10), "match is of Python 3.10 and later")
    def test_matched(self):
        for kind in (Specifier, SpecifierSet):
            found = {"kind": kind, "it": kind(">= 1")}
            exec("match it:\n case kind('<1'): found = 0\n case kind('>=1'): found = 1", found)
            self.assertEqual(found["found"], 1)

    def test_sets_of_texts(self):
        specifiers = SpecifierSet([">=1", Specifier("<2.0rc1"), " ~= 1.1 "])
        self.assertEqual((specifiers, specifiers.prereleases), (SpecifierSet(">=1,<2.0rc1,~=1.1"), True))
        self.assertTrue(specifiers.contains("1.2"))
        self.assertTrue(all(isinstance(it, Specifier) for it in specifiers))
        for texts in (["junk"], [">=1", ""], [">=1,<2"], ">=1"):
            with self.assertRaises(InvalidSpecifier, msg=texts):
                SpecifierSet(iter(texts))
        with self.assertRaises(TypeError):
            SpecifierSet([1])

    def test_texts_that_print_as_others(self):
        """What counts of a member of an `Enum` that is a text is that text."""
        texts = enum.Enum("texts", {"list": ">=1", "version": "1.5", "many": "18446744073709551616"}, type=str)
        specifiers = SpecifierSet(texts.list)
        self.assertEqual(specifiers, texts.list)
        self.assertEqual((specifiers & texts.list, SpecifierSet([texts.list])), (SpecifierSet(">=1,>=1"), specifiers))
        self.assertEqual((str(specifiers), str(Specifier(texts.list))), (">=1", ">=1"))
        self.assertTrue(specifiers.contains(texts.version))
        self.assertEqual(list(specifiers.filter([texts.version])), [texts.version])
        with self.assertRaises(InvalidVersion):
            specifiers.contains(texts.many)

    def test_texts_that_join_in_another_way(self):
        """As those of templates do, which escape what is joined to them."""
        class Markup(str):
            def __radd__(self, other):
                return other.replace(">", "&gt;") + str(self)

            def strip(self, *_):
                return self

            def split(self, *_):
                return [self]

        texts = [str(Specifier(Markup(">=1.0"))), str(SpecifierSet(Markup(">=1.0,"))), str(SpecifierSet([Markup(">=1.0")]))]
        self.assertEqual(texts, [">=1.0"] * 3)
        self.assertTrue(Specifier(Markup(">=1.0")).contains(Markup(" 2")))

    def test_classes_that_print_something_else(self):
        """What counts of a specifier isn't what it prints."""
        class Own(Specifier):
            def __str__(self):
                return ">=9"

        own, both = Own(">=1"), SpecifierSet([Own(">=1")]) & SpecifierSet([Own("<3")])
        for it in (own, copy.copy(own), SpecifierSet([own]), both, copy.copy(both)):
            self.assertTrue(it.contains("2"))
            self.assertFalse(it.contains("0"))
        self.assertEqual((SpecifierSet(">=1"), str(SpecifierSet([own]))), (own, ">=9"))

    def test_weak_references(self):
        for it in (Specifier(">=1"), SpecifierSet(">=1")):
            self.assertIs(weakref.ref(it)(), it)

    def test_refused(self):
        for text in ("", "1.0", "=1.0", "~=1", "==1.0.*.1", ">=1.*", "<1+local", ">=1,<2", "===lolwat", ">=1 <2"):
            with self.assertRaises(InvalidSpecifier, msg=text):
                Specifier(text)
        with self.assertRaises(InvalidSpecifier) as found:
            SpecifierSet(">=1,=2")
        error = found.exception
        self.assertEqual(error.text[error.start : error.end].strip(), "=2")
        with self.assertRaises(TypeError):
            Specifier(1)


class Ranges(unittest.TestCase):
    """As sets of points on the line of versions."""

    ROWS = [
        # left, right, whether the left one is a subset, the right one is, they are disjoint
        (">=1.2,<2", "~=1.2", True, False, False),
        (">=1.2", ">1.2", False, True, False),
        (">=2", "<2", False, False, True),
        (">=2", "<=2", False, False, False),
        ("==1.2.*", ">=1.2", False, False, False),
        ("==1.2.*", ">=1.2.dev0,<1.3.dev0", True, True, False),
        ("==1.0", "==1", True, True, False),
        ("==1.0", "==1.0+local", False, False, True),
        ("==1.0", "!=1", False, False, True),
        ("", ">=1,<2", False, True, False),
        (">=2,<1", "==5", True, False, True),
        (">1,<1.0.post1", "==5", True, False, True),
    ]

    def test_relations(self):
        for left, right, below, above, apart in self.ROWS:
            one, other = SpecifierSet(left), SpecifierSet(right)
            found = (one.is_subset(other), other.is_subset(one), one.is_disjoint(other), other.is_disjoint(one))
            self.assertEqual(found, (below, above, apart, apart), (left, right))
            self.assertEqual((one.is_subset(right), one.is_disjoint(right)), (below, apart))

    def test_one_specifier(self):
        for left, right, below, above, apart in self.ROWS:
            if "," not in left + right and left:
                one, other = Specifier(left), Specifier(right)
                self.assertEqual((one.is_subset(other), other.is_subset(one), one.is_disjoint(other)), (below, above, apart))
                self.assertEqual(SpecifierSet(left).is_subset(other), below)

    def test_empty(self):
        for text in (">=2,<1", "==1,==2", "==1.*,!=1.*", ">1,<1.0.post1"):
            self.assertTrue(SpecifierSet(text).is_empty(), text)
        for text in ("", ">=1,<=1", "<0.dev0", ">1,<1.0.1"):
            self.assertFalse(SpecifierSet(text).is_empty(), text)
        self.assertTrue((SpecifierSet(">=1") & "<1").is_empty())

    def test_what_is_taken(self):
        """A subset takes no more, and disjoint ones nothing together. (`===`, local and post-releases have their own rules.)"""
        versions = [it for it in VERSIONS if "+" not in it and "post" not in it]
        texts = [it for it in TAKEN if "+" not in it and "===" not in it]
        taken = {it: set(SpecifierSet(it).filter(versions, prereleases=True)) for it in texts}
        for left, right in itertools.product(texts, repeat=2):
            one, other = SpecifierSet(left), SpecifierSet(right)
            if one.is_subset(other):
                self.assertLessEqual(taken[left], taken[right], (left, right))
            if one.is_disjoint(other):
                self.assertFalse(taken[left] & taken[right], (left, right))
            self.assertEqual(one.is_disjoint(other), (one & other).is_empty(), (left, right))
            self.assertTrue((one & other).is_subset(one), (left, right))

    def test_refused(self):
        greatest = 2**64 - 1
        one = SpecifierSet(f"==1.{greatest}.*")
        for call in (one.is_empty, lambda: one.is_subset(">=1"), lambda: SpecifierSet(">=1").is_disjoint(one)):
            with self.assertRaises(InvalidSpecifier) as found:
                call()
            self.assertEqual(found.exception.text, str(one))
        self.assertTrue(SpecifierSet(f"==1.{greatest}").is_subset(">=1"))
        for other in ("x", ">=1;"):
            with self.assertRaises(InvalidSpecifier):
                one.is_subset(other)
        for other in (1, None, Version("1")):
            with self.assertRaises(TypeError):
                one.is_disjoint(other)
