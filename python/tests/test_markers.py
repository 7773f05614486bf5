"""Markers, by PEP 508."""

import concurrent.futures
import copy
import functools
import itertools
import operator
import os
import pickle
import sys
import unittest
import weakref
from unittest import mock

from fowlyore import (
    InvalidMarker, InvalidVersion, Marker, Requirement, Specifier, UndefinedEnvironmentName, Version, _native, default_environment,
)  # fmt: skip
from fowlyore.utils import canonicalize_name

WINDOWS = {"os_name": "nt", "sys_platform": "win32", "platform_system": "Windows", "python_version": "3.12"}
ALWAYS, NEVER = "os_name == 'nt' or os_name != 'nt'", "os_name == 'nt' and os_name == 'posix'"
# Markers without a normal text, for the four causes.
UNPRINTABLE = [
    """os_name == "it's\"""",
    "os.name == 'nt'",
    "implementation_version in '1+x'",
    "python_full_version in '3.11.4rc1 3.12'",
    NEVER,
]


class Markers(unittest.TestCase):
    def test_evaluate(self):
        rows = [
            (f"os_name == '{os.name}'", None, True),
            ("os_name == 'nt'", WINDOWS, True),
            ("python_version < '3.13'", WINDOWS, True),
            ("python_full_version >= '3.12.1'", WINDOWS, False),
            ("python_full_version >= '3.12.1'", {"python_full_version": "3.12.4"}, True),
            ("python_full_version < '3.12'", {"python_full_version": "3.11.1+"}, True),
            ("'in32' in sys_platform", WINDOWS, True),
            ("os_name == 'posix' or (sys_platform == 'win32' and python_version ~= '3.10')", WINDOWS, True),
            ("extra == 'Test_It'", {"extra": "test.it"}, True),
            ("extra == 'test'", {"extra": ""}, False),
            ("extra == 'test'", {"extra": None}, False),
            ("extra == 'test'", {"extra": []}, False),
            ("extra != 'test'", {}, True),
        ]
        for text, environment, wanted in rows:
            self.assertIs(Marker(text).evaluate(environment), wanted, (text, environment))

    def test_equal_where_they_mean_the_same(self):
        marker = Marker("python_version > '3.7' and os_name == 'nt'")
        self.assertEqual(marker, Marker('"nt" == os_name and python_full_version >= "3.8.0"'))
        self.assertEqual(len({marker, Marker(str(marker))}), 1)
        self.assertNotEqual(marker, Marker("python_version > '3.7'"))
        self.assertNotEqual(marker, str(marker))

    def test_always_and_never(self):
        for text, holds in ((ALWAYS, True), (NEVER, False)):
            marker = Marker(text)
            self.assertEqual((str(marker), repr(marker)), (text, f"<Marker({text!r})>"))
            self.assertIs(marker.evaluate(WINDOWS), holds)
            self.assertEqual((marker.is_true(), marker.is_false()), (holds, not holds))
        self.assertFalse(Marker("os_name == 'nt'").is_true() or Marker("os_name == 'nt'").is_false())

    def test_different_where_they_print_alike(self):
        alike = [
            ("""os_name == "a' and sys_platform == 'b\"""", "os_name == 'a' and sys_platform == 'b'"),
            ("implementation_version in '1+x'", "implementation_version in '1'"),
            ("python_full_version in '3.11.4rc1'", "python_full_version in '3.11.4'"),
            ("os.name == 'nt'", "os_name == 'nt'"),
            ("platform.python_implementation == 'x'", "python_implementation == 'x'"),
        ]
        for left, right in alike:
            self.assertNotEqual(Marker(left), Marker(right))
            self.assertEqual(len({Marker(left), Marker(right)}), 2, left)

    def test_order(self):
        texts = ["os_name == 'nt'", "os_name == 'a'", "python_version < '3'", ALWAYS, NEVER, "extra == 'x'", *UNPRINTABLE[:4]]
        markers = [Marker(it) for it in texts]
        rising = sorted(markers)
        self.assertEqual(sorted(reversed(markers)), rising)
        for (at, one), (to, other) in itertools.product(enumerate(rising), repeat=2):
            answers = (one < other, one <= other, one > other, one >= other, one == other)
            self.assertEqual(answers, (at < to, at <= to, at > to, at >= to, at == to))
        with self.assertRaises(TypeError):
            markers[0] < "os_name == 'nt'"

    def test_texts(self):
        self.assertEqual(str(Marker(' "nt"==os_name ')), "os_name == 'nt'")
        for text in (ALWAYS, *UNPRINTABLE, "'a' == 'a'", "(os.name =='nt' )"):
            marker = Marker(f" {text}\t\n")
            self.assertEqual((str(marker), repr(marker)), (text, f"<Marker({text!r})>"))
            self.assertEqual(Marker(str(marker)), marker)

    def test_nothing_is_printed_before_somebody_prints(self):
        """The normal text of such a marker is exponentially long."""
        text = " or ".join(f"extra == 'a{it}' and extra == 'b{it}'" for it in range(10, 22))
        with mock.patch.object(_native, "marker", side_effect=AssertionError):
            marker = Marker(text)
            self.assertEqual([marker.evaluate({"extra": it}) for it in ("a10", "")], [False, False])
            self.assertEqual((marker.is_true(), marker.is_false()), (False, False))
            other = functools.reduce(operator.or_, map(Marker, reversed(text.split(" or "))))
            self.assertEqual((marker, hash(marker)), (other, hash(other)))

    def test_a_key_is_asked_for_once(self):
        with mock.patch.object(_native, "marker_key", wraps=_native.marker_key) as key:
            one, other = Marker("os_name == 'nt'"), Marker("'nt' == os_name")
            self.assertEqual(key.call_count, 0)
            self.assertEqual((one == other, one == other, hash(one) == hash(other), one < other), (True, True, True, False))
            self.assertEqual(key.call_count, 2)

    def test_copies(self):
        for text in (ALWAYS, *UNPRINTABLE, "os_name == 'nt'"):
            marker = Marker(text)
            for it in (pickle.loads(pickle.dumps(marker)), copy.copy(marker), copy.deepcopy(marker)):
                self.assertEqual((it, str(it), hash(it)), (marker, str(marker), hash(marker)))

    def test_refused(self):
        no_markers = ["", "os_name", "os_name == 'nt", "no_such_key == 'a'", "os_name == 'a' os_name == 'b'", "os_name ==\n'a'"]
        for text in no_markers:
            with self.assertRaises(InvalidMarker, msg=text):
                Marker(text)
        with self.assertRaises(TypeError):
            Marker(None)

    def test_environments_that_are_none(self):
        no_texts = ({"os_name": it} for it in (None, 1, 1.5, b"nt", ["nt"], {"nt"}, {(): 1}, object(), 10**5000))
        for environment in ({"python_full_version": "three"}, {"implementation_version": "x"}, *no_texts):
            with self.assertRaises(UndefinedEnvironmentName, msg=environment):
                Marker("os_name == 'nt'").evaluate(environment)

    def test_extras_that_are_none(self):
        deep = functools.reduce(lambda it, _: [it], range(100_000), [])
        for extra in ("a\nb", "b\n", "\nb", "\n", "no name", "-", 1, b"b", ["b"], {"b"}, 10**5000, [10**5000], deep):
            with self.assertRaises(UndefinedEnvironmentName):
                Marker("extra == 'b'").evaluate({"extra": extra})
            if extra.__hash__:
                with self.assertRaises(UndefinedEnvironmentName):
                    Marker("extra == 'b'").simplify_extras([extra])

    def test_environments_with_other_keys(self):
        """They aren't looked at, also if they have no text."""
        for key in (10**5000, (), None, b"os_name", frozenset([10**5000])):
            self.assertTrue(Marker("os_name == 'nt'").evaluate({key: "x", "os_name": "nt"}))

    def test_texts_that_are_equal_to_others(self):
        """Answers on them aren't kept, and given where another text is asked about."""
        class Odd(str):
            def __eq__(self, other):
                return True

            def __hash__(self):
                return hash("odd-b")

        marker = Marker("extra == 'odd-a'")
        self.assertTrue(marker.evaluate({"extra": Odd("odd-a")}))
        self.assertFalse(marker.evaluate({"extra": "odd-b"}))
        self.assertEqual(canonicalize_name(Odd("Odd_A")), "odd-a")
        self.assertEqual(canonicalize_name("odd-b"), "odd-b")

    def test_made_once(self):
        """So that none that is kept by its hash changes, nor what was joined of it."""
        marker, joined = Marker("os_name == 'nt'"), Marker("os_name == 'nt'") & Marker("extra == 'x'")
        for it in (marker, joined):
            for text in ("os_name == 'posix'", "no marker"):
                with self.assertRaisesRegex(TypeError, "^a marker is made once$"):
                    it.__init__(text)
        self.assertEqual((str(marker), str(joined)), ("os_name == 'nt'", "os_name == 'nt' and extra == 'x'"))
        again = Marker.__new__(Marker)
        with self.assertRaises(InvalidMarker):
            again.__init__("no marker")
        again.__init__("os_name == 'nt'")
        self.assertEqual(again, marker)

    def test_weak_references(self):
        for it in (Marker("os_name == 'nt'"), Requirement("foo")):
            self.assertIs(weakref.ref(it)(), it)

    def test_default_environment(self):
        environment = default_environment()
        self.assertEqual(len(environment), 11)
        self.assertTrue(all(isinstance(it, str) for it in environment.values()))


class Algebra(unittest.TestCase):
    def test_and_or(self):
        one, other, third = Marker("os_name == 'nt' or os_name == 'a'"), Marker("sys_platform == 'b'"), Marker("extra == 'c'")
        rows = [
            (one & other, "(os_name == 'nt' or os_name == 'a') and sys_platform == 'b'"),
            (other & one, "sys_platform == 'b' and (os_name == 'nt' or os_name == 'a')"),
            (one | other, "os_name == 'nt' or os_name == 'a' or sys_platform == 'b'"),
            ((one | other) & third, "(os_name == 'nt' or os_name == 'a' or sys_platform == 'b') and extra == 'c'"),
            (third | (other & third), "extra == 'c' or sys_platform == 'b' and extra == 'c'"),
            ((other & third) & third, "sys_platform == 'b' and extra == 'c' and extra == 'c'"),
            (Marker("('or' == os_name)") & third, "('or' == os_name) and extra == 'c'"),
            (Marker("(os_name == 'nt' or os_name == 'a')") & third, "(os_name == 'nt' or os_name == 'a') and extra == 'c'"),
            (Marker("os_name == 'nt'or os_name == 'a'") & third, "(os_name == 'nt'or os_name == 'a') and extra == 'c'"),
            (Marker("os_name == ')' or os_name == '('") & third, "(os_name == ')' or os_name == '(') and extra == 'c'"),
        ]
        for marker, text in rows:
            self.assertEqual((marker._given, marker), (text, Marker(text)))
        for call in (operator.and_, operator.or_):
            with self.assertRaises(TypeError):
                call(one, "os_name == 'nt'")

    def test_long_chains(self):
        """No bracket nests in them, since brackets may nest 256 deep alone."""
        markers = [Marker(f"extra == 'x{it}' or os_name == 'posix'") for it in range(1000)]
        for call, either in ((operator.and_, all), (operator.or_, any)):
            left = functools.reduce(call, markers)
            right = functools.reduce(lambda later, marker: call(marker, later), reversed(markers))
            for it in (left, right):
                for name in ("posix", "nt"):
                    self.assertIs(it.evaluate({"os_name": name, "extra": "x5"}), name == "posix" or either is any)
            self.assertEqual(left._given, right._given)

    def test_a_chain_of_many(self):
        """What 100,000 calls joined is written once, in time linear in it."""
        one, other = Marker("os_name == 'a'"), Marker("extra == 'b'")
        marker = functools.reduce(lambda whole, it: whole | (one if it % 2 else other), range(100_000), one)
        self.assertEqual(len(marker._given), 100_001 * len("os_name == 'a'") + 100_000 * len(" or ") - 50_000 * 2)
        self.assertTrue(marker.evaluate({"os_name": "a"}))

    def test_threads_that_ask_for_one_text(self):
        """What `&` and `|` made is written by whichever thread asks first, or by several at once."""
        one, other, always = Marker("os_name == 'a'"), Marker("extra == 'b' or os_name == 'c'"), Marker(ALWAYS)
        interval = sys.getswitchinterval()
        self.addCleanup(sys.setswitchinterval, interval)
        sys.setswitchinterval(1e-6)
        for _ in range(200):
            made = functools.reduce(lambda whole, it: (whole | it) & other | always & one, [one] * 8, other)
            with concurrent.futures.ThreadPoolExecutor(4) as pool:
                found = set(pool.map(lambda marker: (marker._given, hash(marker), marker.evaluate({"os_name": "c"})), [made] * 8))
            self.assertEqual(found, {(made._given, hash(Marker(made._given)), True)})

    def test_chains_of_both(self):
        """Where brackets would nest too deep another text stands in them, if there is one."""
        texts = ["os_name == 'nt'", "os_name == 'nt' or sys_platform == 'b0'", NEVER, """os_name == "it's\""""]
        for text in texts:
            marker = Marker(text)
            for it in range(256):
                marker = (marker | Marker(f"extra == 'a{it % 3}'")) & Marker(f"sys_platform != 'b{it % 3}'")
            marker |= Marker("os_name == 'c'")
            if text == texts[-1]:
                for use in (str, hash, Marker.evaluate, Marker.is_true):
                    with self.assertRaises(InvalidMarker):
                        use(marker & Marker("os_name != 'd'"))
                continue
            marker &= Marker("os_name != 'd'")
            for name, extra in (("nt", ""), ("d", "a1"), ("x", "a2"), ("c", "")):
                wanted = name != "d" and (name == "c" or extra == "a2" or name == "nt" and text != NEVER)
                environment = {"os_name": name, "sys_platform": "linux", "extra": extra}
                self.assertIs(marker.evaluate(environment), wanted, (text, environment))

    def test_constants_in_brackets_that_nest_deep(self):
        one, other = Marker("os_name == 'nt'"), Marker("os_name != 'nt'")
        always, never = one | other, one & other
        for _ in range(256):
            always, never = (always | one) & (one | other), (never | one & other) & other
        self.assertTrue(always.is_true() and never.is_false())
        self.assertEqual(((always | never) & one, (never | one & other) & one), (one, Marker(NEVER)))

    def test_markers_that_say_nothing(self):
        """Such a one holds by itself, but is passed over where it is joined with others in one text."""
        nothing, nt = Marker("'a' == 'b'"), Marker("os_name == 'nt'")
        self.assertEqual(Marker("'a' == 'b' or os_name == 'nt'"), nt)
        for it in (nothing, nothing & nothing, nothing | nothing, nothing & Marker(ALWAYS)):
            self.assertTrue(it.is_true())
            for joined in (it & nt, nt & it, it & nt & it):
                self.assertEqual(joined, nt)
            for joined in (it | nt, nt | it, it & it | nt):
                self.assertTrue(joined.is_true())

    def test_negate(self):
        rows = [
            ("os_name == 'nt'", "os_name != 'nt'"),
            ("python_version >= '3.8' and extra == 'x'", "python_full_version < '3.8' or extra != 'x'"),
            ("'x' in os_name", "'x' not in os_name"),
        ]
        for text, negated in rows:
            self.assertEqual((~Marker(text), str(Marker(text).negate())), (Marker(negated), negated))
            self.assertEqual(~~Marker(text), Marker(text))
        self.assertTrue(Marker(ALWAYS).negate().is_false())
        self.assertTrue(Marker(NEVER).negate().is_true())
        for it in (Marker(ALWAYS).negate(), Marker(NEVER).negate()):
            self.assertEqual(Marker(str(it)), it)

    def test_without_a_normal_text(self):
        causes = ["single quote", "deprecated key", "version bound", "version bound"]
        for text, cause in zip(UNPRINTABLE, causes):
            marker = Marker(text)
            for call in (marker.negate, marker.__invert__, lambda: marker.simplify_extras("x"), marker.simplify_python_versions):
                with self.assertRaises(InvalidMarker, msg=text) as found:
                    call()
                self.assertEqual(found.exception.message, f"no normal text: {cause}")

    def test_relations(self):
        rows = [
            ("python_version >= '3.9'", "python_version >= '3.8'", True, False),
            ("python_version >= '3.8'", "python_version >= '3.9'", False, False),
            ("python_version < '3.8'", "python_full_version >= '3.8.0'", False, True),
            ("os_name == 'nt'", "os_name == 'posix'", False, True),
            ("os_name == 'nt'", "extra == 'x'", False, False),
            ("extra == 'X_1'", "extra == 'x-1' or os_name == 'nt'", True, False),
            ("""os_name == "a' and sys_platform == 'b\"""", "os_name == 'a' and sys_platform == 'b'", False, True),
            ("implementation_version in '1+x'", "implementation_version in '1'", False, True),
            ("implementation_version in '1+x'", "implementation_version in '1 1+x'", True, False),
            (NEVER, "os_name == 'nt'", True, True),
            ("os_name == 'nt'", ALWAYS, True, False),
            ("os_name == 'nt'", "'a' == 'b'", True, False),
        ]
        for left, right, implies, disjoint in rows:
            one, other = Marker(left), Marker(right)
            self.assertEqual((one.implies(other), one.is_disjoint(other)), (implies, disjoint), (left, right))
            self.assertEqual(other.is_disjoint(one), disjoint)
            self.assertEqual((one & other) == one, implies)
            self.assertTrue(one.implies(one))

    def test_relations_with_others(self):
        marker = Marker("os_name == 'nt'")
        for other in ("os_name == 'nt'", None, Specifier(">=1"), Requirement("foo")):
            for call in (marker.implies, marker.is_disjoint):
                with self.assertRaisesRegex(TypeError, "^a Marker is compared with a Marker, not with ", msg=other):
                    call(other)

    def test_simplify_python_versions(self):
        marker = Marker("python_version >= '3.8' and python_version < '3.12' and os_name == 'nt'")
        rows = [
            ((None, None), "python_full_version >= '3.8' and python_full_version < '3.12' and os_name == 'nt'"),
            (("3.9", None), "python_full_version < '3.12' and os_name == 'nt'"),
            ((None, Version("3.12")), "python_full_version >= '3.8' and os_name == 'nt'"),
            (("3.8", "3.12"), "os_name == 'nt'"),
        ]
        for bounds, text in rows:
            self.assertEqual(str(marker.simplify_python_versions(*bounds)), text, bounds)
        self.assertTrue(marker.simplify_python_versions("3.12").is_false())
        self.assertTrue(Marker("python_version >= '3.8'").simplify_python_versions(lower="3.8").is_true())
        for bounds in (("x", None), (None, ""), ("3.8", "3.*")):
            with self.assertRaises(InvalidVersion, msg=bounds):
                marker.simplify_python_versions(*bounds)
        with self.assertRaises(TypeError):
            marker.simplify_python_versions(3)

    def test_simplify_extras(self):
        marker = Marker("extra == 'a' and (extra == 'b-1' or os_name == 'nt')")
        rows = [([], str(marker)), (["A"], "extra == 'b-1' or os_name == 'nt'"), ("B_1", "extra == 'a'"), (["c"], str(marker))]
        for extras, text in rows:
            self.assertEqual(str(marker.simplify_extras(extras)), text, extras)
        self.assertTrue(marker.simplify_extras(it for it in ("a", "b.1")).is_true())
        self.assertTrue(Marker("extra != 'a'").simplify_extras("a").is_false())
        for extras in ("", "no name", ["a\nb"], ["a", ""], ["-"]):
            with self.assertRaises(UndefinedEnvironmentName, msg=extras):
                marker.simplify_extras(extras)
