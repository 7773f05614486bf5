"""What the package decides by itself, on random inputs: which pre-releases `contains` and `filter` admit, what
the names of files say, and how parts make a version.

Each is compared with a reading of its own here, with the commands, and with packaging 26.2 where it is.
FOWLYORE_RANDOM is how many inputs are tried, in proportion, by default as many as take a few seconds;
FOWLYORE_SEED is what they come from.
"""

import itertools
import os
import random
import re
import unittest

import fowlyore
from fowlyore import InvalidInput, Specifier, SpecifierSet, Version, _native, utils
from fowlyore.version import normalize_pre

from . import beside

COUNT = int(os.environ.get("FOWLYORE_RANDOM", "20000"))
SEED = os.environ.get("FOWLYORE_SEED", "a seed")
ENVIRONMENT = {"python_version": "3.11"}
SAID = (None, True, False)
# What the normal text of a pre-release or a developmental release has before a `+`.
EARLY = re.compile("[^+]*(?:a|b|rc|dev)")
WHEEL = re.compile(r"([^-]*)-([^-]*)(-[^-]*)?-([^-]*)-([^-]*)-([^-]*)\.whl", re.DOTALL)
NAME = re.compile(r"[a-z0-9]|[a-z0-9][a-z0-9._-]*[a-z0-9]", re.ASCII | re.IGNORECASE)
PIECES = ["a", "B", "1", "0", "-", "_", ".", "__", "x9", "\u00e9", "[", "K"]


class Random(random.Random):
    def version(self, local=True):
        """The normal text of a version."""
        parts = ["1!"] if self.random() < 0.1 else []
        parts.append(".".join(str(self.randrange(3)) for _ in range(self.randrange(1, 4))))
        for words in ("a0 b1 rc1 rc2", ".post0 .post1", ".dev0 .dev1"):
            parts += [self.choice(words.split())] if self.random() < 0.25 else []
        parts += ["+x.1"] if local and self.random() < 0.1 else []
        return "".join(parts)

    def versions(self):
        """Versions, some of which no text of a version stands for."""
        found = [self.version() for _ in range(self.randrange(6))]
        return found + ([self.choice(["", "x", "1.*", "1 0"])] if self.random() < 0.2 else [])

    def specifier(self):
        operator = self.choice(["==", "!=", "<", "<=", ">", ">=", "~="])
        version = self.version(local=operator in ("==", "!="))
        if operator in ("==", "!=") and self.random() < 0.4:
            return f"{operator}{Version(version).base_version}.*"
        if operator == "~=" and len(Version(version).release) == 1:
            return f"~={Version(version).__replace__(release=(1, 0))}"
        return operator + version

    def specifiers(self):
        return ",".join(self.specifier() for _ in range(self.randrange(4)))

    def name(self):
        return "".join(self.choices(PIECES, [6, 4, 3, 2, 3, 3, 3, 1, 3, 1, 1, 1], k=self.randrange(5)))

    def wheel(self):
        """What may be the name of a wheel."""
        name = self.choice([self.name(), "foo", "A.b_1"])
        version = self.choice([self.version(), self.version(), "v1.0", "1.x", "", "1.0_1"])
        build = self.choice(["", "", "-1", "-02b", "-x", "-3_.a"])
        tags = self.choice("py3-none-any py2.py3-none-any py3.py2-none-ANY cp39-abi3-b.a py3-none --".split())
        return f"{name}-{version}{build}-{tags}{self.choice(['.whl', '.whl', '.whl', '.WHL', '.zip'])}"


def names_one(text, operators):
    """Whether a list of specifiers names a pre-release by one of these operators, as its text says."""
    found = (re.match("[=<>!~]+", it)[0] for it in text.split(",") if it)
    each = zip(found, (re.sub(r"^[=<>!~]+|\.\*$", "", it) for it in text.split(",") if it))
    return any(EARLY.match(version) for operator, version in each if operator in operators)


def admitted(accepted, said):
    """Which of some versions are left where pre-releases are admitted, or aren't, or are if nothing else is there
    (PEP 440, Handling of pre-releases)."""
    finals = [it for it in accepted if not EARLY.match(it)]
    return accepted if said else finals if said is False else finals or accepted


def outcome(call, *given, **named):
    """What a function answers, as texts, or that it refuses."""
    try:
        found = call(*given, **named)
    except ValueError as error:
        return type(error).__name__
    if not isinstance(found, tuple):
        return found
    return [sorted(map(str, it)) if isinstance(it, frozenset) else str(it) for it in found]


class Prereleases(unittest.TestCase):
    """What a list of specifiers accepts is the library's answer; which of that is admitted is decided here."""

    def setUp(self):
        self.random = Random(SEED)

    def test_as_they_are_read_here(self):
        for _ in range(COUNT // 20):
            text, versions = self.random.specifiers(), [self.random.version() for _ in range(5)]
            answers = _native.take(text.encode(), "".join(f"{it}\n" for it in versions).encode())
            accepted = [it for it, answer in zip(versions, answers) if answer == ord("1")]
            kinds = [SpecifierSet] + [Specifier] * (text.count(",") == 0 and text != "")
            for kind, said, given in itertools.product(kinds, SAID, SAID):
                specifiers = kind(text, prereleases=said)
                names = True if names_one(text, ("==", "<", "<=", ">", ">=", "~=")) else None
                wanted = next((it for it in (given, said, names) if it is not None), None)
                found = list(specifiers.filter(versions, given))
                self.assertEqual(found, admitted(accepted, wanted), (text, said, given))
                for it in versions:
                    held = bool(admitted([it] if it in accepted else [], wanted))
                    self.assertIs(specifiers.contains(it, given), held, (text, it, said, given))

    def test_as_check_chooses(self):
        """`check` admits pre-releases where a specifier names one by any operator, and in no other case."""
        found = 0
        for _ in range(COUNT // 20):
            text, versions = self.random.specifiers(), [self.random.version() for _ in range(5)]
            (row,) = fowlyore.check([f"foo{text}"], ENVIRONMENT, {"foo": versions})
            names = names_one(text, ("==", "!=", "<", "<=", ">", ">=", "~="))
            taken = [Version(it) for it in SpecifierSet(text).filter(versions, prereleases=names)]
            self.assertEqual(row.is_none, not taken, (text, versions))
            if taken:
                self.assertEqual(Version(row.outcome), max(taken), (text, versions))
                found += 1
        self.assertGreater(found, COUNT // 100)


class Files(unittest.TestCase):
    """What the names of files say."""

    def setUp(self):
        self.random = Random(SEED)

    def test_names_as_the_commands_read_them(self):
        names = {self.random.name() for _ in range(COUNT // 10)}
        held = 0
        for name in names:
            try:
                (row,) = fowlyore.check([f"{name}==1"], ENVIRONMENT, [(name, "1")])
            except InvalidInput:
                wanted = ""
            else:
                self.assertEqual((row.extras, row.outcome), ((), "1"), name)
                wanted = row.name
            self.assertEqual(bool(NAME.fullmatch(name)), wanted != "", name)
            self.assertIs(utils.is_normalized_name(name), wanted == name != "", name)
            judged, refused = outcome(utils.canonicalize_name, name, validate=True), "InvalidName"
            self.assertEqual(judged, wanted if wanted else refused, name)
            self.assertEqual(utils.canonicalize_name(name), re.sub("[-_.]+", "-", name).lower(), name)
            archive = [wanted, "1"] if wanted else "InvalidSdistFilename"
            self.assertEqual(outcome(utils.parse_sdist_filename, f"{name}-1.zip"), archive, name)
            held += wanted != ""
        self.assertGreater(min(held, len(names) - held), len(names) // 10)

    def test_wheels_as_they_are_read_here(self):
        held = 0
        for _ in range(COUNT // 10):
            filename = self.random.wheel()
            wanted = self.read(filename) or "InvalidWheelFilename"
            self.assertEqual(outcome(utils.parse_wheel_filename, filename), wanted, filename)
            held += wanted != "InvalidWheelFilename"
        self.assertGreater(held, COUNT // 200)

    def read(self, filename):
        """What the name of a wheel says, as texts, or None where it is none."""
        found = WHEEL.fullmatch(filename)
        if found is None or not NAME.fullmatch(found[1]) or "__" in found[1]:
            return None
        version, build = outcome(Version, found[2]), re.fullmatch("-([0-9]+)(.*)", found[3] or "-0")
        if isinstance(version, str) or build is None:
            return None
        tags = itertools.product(*(it.lower().split(".") for it in found.group(4, 5, 6)))
        name = re.sub("[-_.]+", "-", found[1]).lower()
        said = (int(build[1]), build[2]) if found[3] else ()
        return [name, str(version), str(said), sorted(map("-".join, tags))]


@beside.where_it_is
class BesidePackaging(unittest.TestCase):
    def setUp(self):
        self.random = Random(SEED)
        self.packaging = beside.packaging()

    def pair(self, text, said):
        """Lists of the same specifiers, and a specifier of each package where the text has one."""
        theirs = self.packaging.specifiers
        yield SpecifierSet(text, said), theirs.SpecifierSet(text, said)
        if text and "," not in text:
            yield Specifier(text, said), theirs.Specifier(text, said)

    def test_prereleases(self):
        for _ in range(COUNT // 20):
            text, versions = self.random.specifiers(), self.random.versions()
            versions = [it for it in versions if not self.is_judged_apart(text, it)]
            for said in SAID:
                for ours, theirs in self.pair(text, said):
                    values = [(it.prereleases, str(it), repr(it)) for it in (ours, theirs)]
                    self.assertEqual(values[0], values[1], (text, said))
                    for given in SAID:
                        self.assert_accept_alike(ours, theirs, versions, given)

    def assert_accept_alike(self, ours, theirs, versions, given):
        said = (ours, given, versions)
        self.assertEqual(list(ours.filter(versions, given)), list(theirs.filter(versions, given)), said)
        items = [(1, it) for it in versions]
        keyed = [list(it.filter(items, given, key=lambda item: item[1])) for it in (ours, theirs)]
        self.assertEqual(keyed[0], keyed[1], said)
        for version in versions:
            found = [it.contains(version, given) for it in (ours, theirs)]
            self.assertIs(found[0], found[1], (*said, version))
            if isinstance(ours, SpecifierSet):
                found = [it.contains(version, given, installed=True) for it in (ours, theirs)]
                self.assertIs(found[0], found[1], (*said, version))

    def is_judged_apart(self, text, version):
        """Whether the library and packaging don't judge a version alike: of post-releases with `<` and `>` alone."""
        ours, theirs = SpecifierSet(text), self.packaging.specifiers.SpecifierSet(text)
        apart = ours.contains(version, True) is not theirs.contains(version, True)
        if apart:
            self.assertIn("post", text + version, (text, version))
            self.assertRegex(text, "[<>](?!=)", version)
        return apart

    def test_members(self):
        for _ in range(COUNT // 20):
            text, other = self.random.specifiers(), self.random.specifiers()
            ours, theirs = SpecifierSet(text), self.packaging.specifiers.SpecifierSet(text)
            self.assertEqual([str(it) for it in ours], [str(it) for it in theirs], text)
            self.assertEqual(len(ours), len(theirs), text)
            both = ours & other, theirs & other
            self.assertEqual([str(it) for it in both[0]], [str(it) for it in both[1]], (text, other))
            self.assertEqual((str(both[0]), str(ours)), (str(both[1]), str(theirs)), (text, other))

    def test_files(self):
        held = 0
        for _ in range(COUNT // 10):
            filename = self.random.wheel()
            for order in (True, False):
                theirs = outcome(self.packaging.utils.parse_wheel_filename, filename, validate_order=order)
                if not NAME.fullmatch(filename.partition("-")[0]):
                    theirs = "InvalidWheelFilename"
                ours = outcome(utils.parse_wheel_filename, filename, validate_order=order)
                self.assertEqual(ours, theirs, filename)
                held += not isinstance(theirs, str)
            name, version = self.random.name(), self.random.choice([self.random.version(), "x", "1-2", ""])
            filename = f"{name}-{version}{self.random.choice(['.zip', '.tar.gz', '.tar', ''])}"
            theirs = outcome(self.packaging.utils.parse_sdist_filename, filename)
            if not NAME.fullmatch(filename.rpartition("-")[0]):
                theirs = "InvalidSdistFilename"
            self.assertEqual(outcome(utils.parse_sdist_filename, filename), theirs, filename)
            held += not isinstance(theirs, str)
        self.assertGreater(held, COUNT // 200)

    def test_names_and_versions(self):
        theirs = self.packaging.utils
        for _ in range(COUNT // 10):
            name = self.random.name()
            version = self.random.choice([self.random.version(), self.random.name()])
            self.assertEqual(utils.canonicalize_name(name), theirs.canonicalize_name(name), name)
            if NAME.fullmatch(name):
                found = [it.canonicalize_name(name, validate=True) for it in (utils, theirs)]
                self.assertEqual(found[0], found[1])
            for it in (True, False):
                found = [of.canonicalize_version(version, strip_trailing_zero=it) for of in (utils, theirs)]
                self.assertEqual(found[0], found[1], version)

    def test_parts(self):
        values = {
            "epoch": [0, 1, -1, None], "release": [(1,), (1, 0), (), None, [1]],
            "pre": [None, ("a", 0), ("Preview", 2), ("x", 1)],
            "post": [None, 0, 3, -1], "dev": [None, 0, 4, "1"], "local": [None, "a", "A_b.01", "", "a b", "a\n"],
        }  # fmt: skip
        theirs = self.packaging.version
        kinds = Version, theirs.Version
        for _ in range(COUNT // 10):
            chosen = [it for it in values if self.random.random() < 0.7]
            parts = {it: self.random.choice(values[it]) for it in chosen}
            text = self.random.version()
            made = [outcome(lambda of: str(of(text).__replace__(**parts)), it) for it in kinds]
            self.assertEqual(made[0], made[1], (text, parts))
            whole = {"release": (1,), **parts}
            made = [outcome(lambda of: str(of.from_parts(**whole)), it) for it in kinds]
            self.assertEqual(made[0], made[1], whole)
        for it in ["alpha", "B", "c", "pre", "preview", "rev", "r", "post", "dev", "x", "", "1", "a1"]:
            self.assertEqual(normalize_pre(it), theirs.normalize_pre(it))

    def test_texts_of_requirements(self):
        url = "https://example.org/x"
        for text in ("foo", "Foo[B,a]>=1,<2", f"foo@{url}", f"foo[b] @ {url} ; os_name == 'nt'"):
            ours, theirs = fowlyore.Requirement(text), self.packaging.requirements.Requirement(text)
            self.assertEqual(str(ours).replace("'", '"'), str(theirs), text)
