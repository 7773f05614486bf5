"""Values that are pickled, by each protocol, and copied."""

import copy
import pickle
import unittest
from functools import partial

import fowlyore
from fowlyore import InvalidInput, Marker, Refused, Requirement, Specifier, SpecifierSet, Version
from fowlyore.explanations import explain
from fowlyore.listings import Entries
from fowlyore.pip_files import read_pip
from fowlyore.utils import Tag, canonicalize_name, parse_sdist_filename, parse_wheel_filename


def error_of(call, *given):
    try:
        call(*given)
    except Refused as error:
        return error
    raise AssertionError(f"{given!r} is refused by nothing")


def set_of_members():
    """One of whose members it was set that it lets pre-releases in."""
    return SpecifierSet([Specifier(">=1.0", prereleases=True), "<3"])


def changed():
    requirement = Requirement("Foo [b , a] >= 1.0 ; os_name == 'nt'")
    requirement.marker, requirement.specifier.prereleases = Marker("os.name == 'nt'"), True
    requirement.extras.add("c")
    return requirement


def listing(data=b"--pre\nfoo>=1 \\\n,<2\n"):
    return read_pip("a", data)


def constrained():
    """A list with a constraint."""
    entries, texts = Entries(), ["foo ; os_name == 'nt'", "foo<2 ; os_name == 'x'"]
    origins = [entries.add(fowlyore.Place("a", at), text) for at, text in enumerate(texts, 1)]
    return fowlyore.Listing("a", texts, origins, constraints={1})


# How values of each class are made.
MADE = {
    "Comparison": [lambda: fowlyore.same("a", "a"), lambda: fowlyore.same("a", "a ; os_name == 'nt'")],
    "Conflict": [lambda: fowlyore.conflicts("a<1\na>2.0rc1")[0]],
    "Covering": [lambda: fowlyore.covers("a", "a"), lambda: fowlyore.covers("a", "a\nb ; os_name == 'nt'")],
    "InvalidInput": [lambda: error_of(fowlyore.normal, "a\nb=1"), lambda: error_of(fowlyore.check, "a", "{}", "")],
    "InvalidName": [lambda: error_of(partial(canonicalize_name, validate=True), "-")],
    "InvalidSdistFilename": [lambda: error_of(parse_sdist_filename, "foo-x.zip")],
    "InvalidWheelFilename": [lambda: error_of(parse_wheel_filename, "foo-1.whl")],
    "InvalidMarker": [lambda: error_of(Marker, "os_name")],
    "InvalidRequirement": [lambda: error_of(Requirement, "a=1")],
    "InvalidSpecifier": [lambda: error_of(Specifier, "=1"), lambda: error_of(SpecifierSet, ">=1,=2")],
    "InvalidVersion": [lambda: error_of(Version, "1.x")],
    "Marker": [lambda: Marker("os_name == 'nt' and extra == 'x'"), lambda: Marker("'x' in os.name") | Marker("extra == 'a'")],
    "MarkerInURLWarning": [lambda: fowlyore.MarkerInURLWarning("why")],
    "Refused": [lambda: Refused("why", text="a=1", line=1, start=1, end=2)],
    "Requirement": [lambda: Requirement("Foo [b , a] >= 1.0 ; os_name == 'nt'"), lambda: Requirement("a @ https://e.org/x"), changed],
    "Assumption": [lambda: fowlyore.Assumption("requires-python", ">=3.8", fowlyore.Place("a", entry="project.requires-python"))],
    "LeftOut": [lambda: listing().left_out[0]],
    "ListedLine": [lambda: listing().lines[0]],
    "Listing": [listing, lambda: listing(b"a\nb # c\n"), constrained, lambda: constrained().without_constraints()],
    "Place": [lambda: fowlyore.Place("a"), lambda: fowlyore.Place("a", 3), lambda: fowlyore.Place("a", entry="b[0]")],
    "Row": [lambda: fowlyore.check("a[x]", candidates="a 1")[0]],
    "Specifier": [
        lambda: Specifier(" ~=  1.4-Alpha "), lambda: Specifier("== 1.0.*"), lambda: Specifier(">=1", prereleases=True),
        lambda: Specifier(">=1.0a1", prereleases=False), lambda: Specifier("===1.0"),
    ],
    "SpecifierSet": [
        SpecifierSet, lambda: SpecifierSet(">=1,<2,"), lambda: SpecifierSet(">=1", prereleases=True),
        lambda: SpecifierSet(prereleases=False), set_of_members, lambda: set_of_members() & "!=2",
    ],
    "Tag": [lambda: Tag("py3", "none", "any")],
    "UndefinedComparison": [lambda: fowlyore.UndefinedComparison("why")],
    "UndefinedEnvironmentName": [lambda: error_of(Marker("extra == 'x'").evaluate, {"extra": "-"})],
    "TooManyClauses": [lambda: error_of(lambda: Marker("os_name == 'nt' and extra == 'a'").negate(clauses=1))],
    "TooManyNodes": [lambda: error_of(lambda: Marker("os_name == 'nt' or extra == 'a'").implies(Marker("extra == 'a'"), nodes=1))],
    "Version": [
        lambda: Version(" 1!2.0-RC.1+Local_1\n"), lambda: Version.from_parts(release=(1, 0), pre=("Beta", 2)),
    ],
    "Explanation": [lambda: explain("a>1\na<1", candidates="a 1\na 2")[0], lambda: explain("a", candidates="a 1rc1")[0]],
}  # fmt: skip


class Below:
    """Classes below those of the package, by these."""

    Version = type("Version", (Version,), {"__module__": __name__, "__qualname__": "Below.Version"})
    Specifier = type("Specifier", (Specifier,), {"__module__": __name__, "__qualname__": "Below.Specifier"})
    SpecifierSet = type("SpecifierSet", (SpecifierSet,), {"__module__": __name__, "__qualname__": "Below.SpecifierSet"})
    Marker = type("Marker", (Marker,), {"__module__": __name__, "__qualname__": "Below.Marker"})
    Requirement = type("Requirement", (Requirement,), {"__module__": __name__, "__qualname__": "Below.Requirement"})


def parts_of(value):
    """What a value says of itself: its class, its texts, and its parts."""
    parts = {"class": type(value), "str": str(value), "repr": repr(value)}
    for name in ("prereleases", "specifier", "marker", "operator", "version", "public", "is_none", "sentences"):
        parts[name] = str(getattr(value, name, None))
    parts["extras"] = sorted(getattr(value, "extras", ()))
    if isinstance(value, Exception):
        parts.update(vars(value))
    if isinstance(value, SpecifierSet):
        parts["members"] = sorted((str(it), it.prereleases) for it in value)
    if isinstance(value, Requirement):
        parts["line"] = value._line()
    if isinstance(value, fowlyore.Listing):
        numbers = () if value.is_plain else range(1, len(value.lines) + 1)
        parts.update(lines=value.lines, places=[value.located(it, 1, 9) for it in numbers])
    return parts


def used(value):
    """The value once each part of it was asked for."""
    parts_of(value)
    if not isinstance(value, (Exception, fowlyore.Comparison, fowlyore.Covering)):
        hash(value)
    return value


def values():
    """Each value, as it is made and after its parts were asked for, with a name for it."""
    for name, makes in MADE.items():
        for number, make in enumerate(makes):
            yield (name, number, "made"), make()
            yield (name, number, "used"), used(make())


class Pickled(unittest.TestCase):
    def assert_alike(self, back, value, said):
        self.assertEqual(parts_of(back), parts_of(value), said)
        if not isinstance(value, Exception):
            self.assertEqual((back, hash(back)), (value, hash(value)), said)

    def test_each_class_has_values(self):
        classes = {it for it in fowlyore.__all__ if isinstance(getattr(fowlyore, it), type)}
        self.assertEqual(classes - set(MADE), set())
        self.assertEqual({name: {type(it()).__name__ for it in makes} for name, makes in MADE.items()}, {it: {it} for it in MADE})

    def test_each_protocol(self):
        for protocol in range(pickle.HIGHEST_PROTOCOL + 1):
            for name, value in values():
                self.assert_alike(pickle.loads(pickle.dumps(value, protocol)), value, (name, protocol))

    def test_copies(self):
        for name, value in values():
            self.assert_alike(copy.copy(value), value, name)
            self.assert_alike(copy.deepcopy(value), value, name)

    def test_what_was_set_on_one_of_a_class_below(self):
        kinds = {Version: "1", Specifier: ">=1", SpecifierSet: ">=1", Marker: "os_name == 'nt'", Requirement: "a"}
        for kind, text in kinds.items():
            below = getattr(Below, kind.__name__)
            value = below(text)
            value.why = ["said"]
            for back in (copy.copy(value), copy.deepcopy(value), pickle.loads(pickle.dumps(value))):
                self.assertEqual((type(back), back, back.why), (below, value, ["said"]))

    def test_a_set_is_no_other_one(self):
        """What is set on a copy isn't set on the value."""
        for value in (Specifier(">=1"), SpecifierSet(">=1")):
            back = pickle.loads(pickle.dumps(value, 0))
            back.prereleases = True
            self.assertEqual((bool(value.prereleases), back.prereleases), (False, True))

    def test_what_the_errors_say(self):
        """Of an input that was refused its name, too."""
        error = error_of(fowlyore.normal, "a\nb=1")
        back = pickle.loads(pickle.dumps(error, 0))
        self.assertIsInstance(back, InvalidInput)
        self.assertEqual((back.input, back.line, back.text, back.start), ("requirements", 2, "b=1", error.start))
