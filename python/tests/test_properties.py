"""Laws that hold for all markers and requirements, tried on random ones.

FOWLYORE_RANDOM is how many markers are tried, by default as many as take a few seconds; FOWLYORE_SEED is what they come
from.
"""

import collections
import os
import random
import unittest

import fowlyore
from fowlyore import InvalidMarker, Marker, Requirement
from fowlyore.markers import holds

COUNT = int(os.environ.get("FOWLYORE_RANDOM", "20000"))
SEED = os.environ.get("FOWLYORE_SEED", "a seed")
VERSION_KEYS = ["python_version", "python_full_version", "implementation_version"]
TEXT_KEYS = """implementation_name os_name platform_machine platform_python_implementation platform_release platform_system
platform_version sys_platform""".split()
OLD_KEYS = """os.name sys.platform platform.version platform.machine platform.python_implementation
python_implementation""".split()
VERSIONS = "3 3.7 3.8 3.8.0 3.8.1 3.9 3.10 3.8rc1 3.8.dev0 3.8.post1 3.8+x 3.9a1.post2.dev3 1!3.8 4 0".split()
PATTERNS = ["3.*", "3.8.*", "3.8.1.*", "3.8rc1.*", "x", ""]
TEXTS = ["nt", "posix", "win32", "win", "", "a b", "\u00e9\u2028", "3.8", "#1", " #2", "or", ")", 'say "it"']
QUOTES = ["it's", "'", "a' and sys_platform == 'b", "a' or (os_name == '"]
EXTRAS = ["test", "Test_It", "test.it", "x1", "x2", "-no-name-", "", "it's"]
NAMES = ["test", "test-it", "x1", "x2"]
SIGNS = ["==", "!=", "<", "<=", ">", ">=", "~="]
FRONTS = [
    "foo", "Foo", "foo>=1", "foo[b,A] >= 1.0 , <2", "foo<1", "foo==1.0rc1", "foo @ https://example.org/x;y", "bar[a]~=1.0",
    "bar", "bar===1.0", "bar @ https://example.org/\u00e9",
]  # fmt: skip
CANDIDATES = "foo 0.9\nfoo 1.0\nfoo 1.5\nfoo 1.0rc1\nbar 1.0\nbar 1.1\nbar 2.0\n"


class Random(random.Random):
    def quoted(self, text):
        marks = [it for it in "'\"" if it not in text]
        return f"{marks[0]}{text}{marks[0]}" if len(marks) == 1 else "{0}{1}{0}".format(self.choice(marks), text)

    def of_versions(self):
        key = self.choice(VERSION_KEYS)
        if self.random() < 0.3:
            listed = " ".join(self.choices(VERSIONS, k=self.randrange(4)))
            return f"{key} {self.choice(['in', 'not in'])} {self.quoted(listed)}"
        value = self.quoted(self.choice(VERSIONS * 2 + PATTERNS))
        sign = self.choice(SIGNS)
        return f"{key} {sign} {value}" if self.random() < 0.7 else f"{value} {sign} {key}"

    def of_texts(self):
        key, value = self.choice(TEXT_KEYS * 2 + OLD_KEYS), self.quoted(self.choice(TEXTS + QUOTES))
        sign = self.choice([*SIGNS, "==", "in", "not in", "not  in"])
        return f"{key} {sign} {value}" if self.random() < 0.6 else f"{value} {sign} {key}"

    def of_extras(self):
        value, sign = self.quoted(self.choice(EXTRAS)), self.choice(["==", "==", "!=", "<", "in"])
        return f"extra {sign} {value}" if self.random() < 0.7 else f"{value} {sign} extra"

    def of_nothing(self):
        """A comparison that means nothing."""
        key, value = self.choice(TEXT_KEYS), self.quoted(self.choice(TEXTS + QUOTES))
        made = [f"{value} == 'a'", f"{key} == os_name", f"extra == {key}", f"{key} ~= {value}", "python_version > 'x'"]
        return self.choice(made)

    def comparison(self):
        makes = [self.of_versions, self.of_texts, self.of_extras, self.of_nothing]
        return self.choices(makes, [5, 5, 3, 1])[0]()

    def marker(self, depth=3):
        """A marker's text."""
        parts = [self.comparison()]
        while depth and self.random() < 0.5:
            part = self.marker(depth - 1)
            parts.append(part if self.random() < 0.4 else f"({part})")
        blank = self.choice([" ", " ", "\t", " \u00a0"])
        later = (f"{blank}{self.choice(['and', 'or'])}{blank}{it}" for it in parts[1:])
        return parts[0] + "".join(later)

    def environment(self):
        values = {it: self.choice(TEXTS + QUOTES) for it in TEXT_KEYS}
        full, other = (self.choice(VERSIONS + ["3.8.2", "3.11.4", "2.7.18"]) for _ in range(2))
        return {**values, "python_full_version": full, "python_version": full, "implementation_version": other}

    def situations(self, count):
        """Environments, each with extras."""
        return [(self.environment(), self.sample(NAMES, self.randrange(3))) for _ in range(count)]

    def requirement(self):
        front = self.choice(FRONTS)
        return front if self.random() < 0.2 else f"{front} ;{self.choice(['', ' '])}{self.marker(2)}"


def answers(markers, situations):
    """For each marker where it holds."""
    return list(zip(*(holds(markers, environment, extras) for environment, extras in situations)))


def negated(marker):
    """The negation, or None where it can't be said."""
    try:
        return ~marker
    except InvalidMarker:
        return None


def outcome(call, *given):
    """What a function answers, or how it refuses."""
    try:
        return call(*given)
    except fowlyore.InvalidInput as error:
        return error.input, error.message, error.text, error.line, error.start, error.end


class Markers(unittest.TestCase):
    def setUp(self):
        self.random = Random(SEED)

    def test_what_is_printed_reads_back(self):
        for _ in range(COUNT):
            text = self.random.marker()
            marker = Marker(text)
            back = Marker(str(marker))
            self.assertEqual(back, marker, text)
            self.assertEqual((hash(back), str(back)), (hash(marker), str(marker)), text)

    def test_equal_ones_hold_alike(self):
        alike = collections.defaultdict(list)
        for _ in range(COUNT // 4):
            text = self.random.marker(1)
            marker = Marker(text)
            more = [Marker(str(marker)), marker & marker, marker | marker, Marker(f"( {text} )")]
            self.assertEqual({marker}, {marker, *more}, text)
            for it in [marker, *more]:
                alike[it].append(it)
        groups = [it for it in alike.values() if len(it) > 5]
        self.assertGreater(len(groups), COUNT // 200)
        ends = [it[0] for it in groups] + [it[-1] for it in groups]
        found = answers(ends, self.random.situations(100))
        for at, it in enumerate(groups):
            self.assertEqual(found[at], found[at + len(groups)], it)

    def test_algebra(self):
        pairs = [(Marker(self.random.marker(1)), Marker(self.random.marker(2))) for _ in range(COUNT // 10)]
        groups = [(one, other, one & other, one | other, negated(one) or one) for one, other in pairs]
        found = answers([it for group in groups for it in group], self.random.situations(100))
        for at, (one, other, both, either, denied) in enumerate(groups):
            held = found[5 * at : 5 * at + 5]
            self.assertEqual(held[2], tuple(map(min, held[0], held[1])), (one._given, other._given))
            self.assertEqual(held[3], tuple(map(max, held[0], held[1])), (one._given, other._given))
            if denied is not one:
                self.assertEqual(held[4], tuple(not it for it in held[0]), one._given)
            self.assert_related(one, other, *held[:2])

    def assert_related(self, one, other, left, right):
        """What markers say of each other is so where they hold, and agrees with other words for it."""
        given = (one._given, other._given)
        implied, apart = one.implies(other), one.is_disjoint(other)
        self.assertFalse(implied and any(a and not b for a, b in zip(left, right)), given)
        self.assertFalse(apart and any(map(min, left, right)), given)
        self.assertFalse(one.is_true() and not all(left) or one.is_false() and any(left), given)
        self.assertEqual(apart, (one & other).is_false(), given)
        self.assertEqual(implied, (one & other) == one, given)
        self.assertEqual(implied, (one | other) == other, given)
        self.assertEqual(one & other, other & one, given)
        self.assertEqual(one | other, other | one, given)
        self.assertTrue((one & other).implies(one) and one.implies(one | other), given)
        denied = negated(one)
        if denied is not None:
            self.assertTrue((one & denied).is_false() and (one | denied).is_true(), given)
            self.assertEqual(implied, (denied | other).is_true(), given)

    def test_simplified(self):
        for _ in range(COUNT // 40):
            marker = Marker(self.random.marker(2))
            lower, upper = (self.random.choice([None, "3.7", "3.8", "3.9", "4"]) for _ in range(2))
            names = self.random.sample(NAMES, self.random.randrange(3))
            try:
                within, having = marker.simplify_python_versions(lower, upper), marker.simplify_extras(names)
            except InvalidMarker:
                continue
            for environment, extras in self.random.situations(10):
                version = fowlyore.Version(environment["python_full_version"])
                left, right, narrow = holds([marker, having, within], environment, [*extras, *names])
                self.assertEqual(left, right, (marker._given, names, environment))
                bounds = [fowlyore.Version(it) for it in (lower or "0.dev0", upper or "9!0")]
                if bounds[0] <= version < bounds[1]:
                    self.assertEqual(left, narrow, (marker._given, lower, upper, environment))


class Requirements(unittest.TestCase):
    """A requirement answers as its text does."""

    def setUp(self):
        self.random = Random(SEED)

    def test_in_each_command(self):
        met = collections.Counter()
        for _ in range(COUNT // 20):
            texts = [self.random.requirement() for _ in range(self.random.randrange(1, 4))]
            lines = [Requirement(it) for it in texts]
            for it in self.random.sample(lines, 1):
                it.marker, it.specifier
            environment, extras = self.random.environment(), self.random.sample(NAMES, 1)
            calls = {
                "check": lambda those: fowlyore.check(those, environment, CANDIDATES, extras),
                "matrix": lambda those: fowlyore.matrix(those, [environment], CANDIDATES, extras),
                "same": lambda those: fowlyore.same(those, texts[:1]),
                "conflicts": fowlyore.conflicts,
                "normal": fowlyore.normal,
            }
            for name, call in calls.items():
                found = outcome(call, lines)
                self.assertEqual(found, outcome(call, texts), (name, texts))
                met[name, type(found)] += 1
        self.assertEqual(len({name for name, kind in met if kind is not tuple}), 5, met)

    def test_as_it_says_where_a_part_was_set(self):
        for _ in range(COUNT // 20):
            text = self.random.requirement()
            it = Requirement(text)
            extras = it.extras
            it.extras = extras | {"more"}
            again = Requirement(it._line())
            self.assertEqual((again, hash(again)), (it, hash(it)), text)
            it.extras = extras
            self.assertEqual((it._line(), Requirement(str(it))), (text.strip(), Requirement(text)))
