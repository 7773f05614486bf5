"""Bounds on what calls make of markers and of lists."""

import enum
import threading
import unittest
from unittest import mock

import fowlyore
from fowlyore import InvalidInput, InvalidMarker, Marker, Requirement, TooManyClauses, TooManyNodes, _native

SMALL = "os_name == 'a' and extra == 'x' or os_name == 'b' and extra == 'y'"


def nodes_grow(count=30):
    """A marker of less than 1,100 bytes, whose decision tree has more than 2^count nodes."""
    return " or ".join(f"extra == 'a{it}' and extra == 'b{it}'" for it in range(10, 10 + count))


def clauses_grow(count=30):
    """One whose decision tree has `count` times two nodes, and whose normal text 2^count clauses."""
    return " and ".join(f"(extra == 'x{it}a' or extra == 'x{it}b')" for it in range(10, 10 + count))


class Usual(unittest.TestCase):
    """The bounds that hold where none is given."""

    def setUp(self):
        self.addCleanup(setattr, fowlyore.bounds, "nodes", fowlyore.bounds.nodes)
        self.addCleanup(setattr, fowlyore.bounds, "clauses", fowlyore.bounds.clauses)

    def test_too_many_nodes(self):
        hostile, small = Marker(nodes_grow()), Marker(SMALL)
        with self.assertRaisesRegex(TooManyNodes, "^more than 1000000 nodes$"):
            hostile.is_true()
        fowlyore.bounds.nodes = 1000
        calls = [
            hash, Marker.is_true, Marker.is_false, Marker.negate, Marker.simplify_python_versions, lambda it: it == small,
            lambda it: it < small, lambda it: it.is_disjoint(small), lambda it: small.implies(it), lambda it: it.simplify_extras(["x"]),
        ]  # fmt: skip
        for call in calls:
            with self.assertRaises(TooManyNodes) as caught:
                call(hostile)
            self.assertEqual((caught.exception.message, caught.exception.text), ("more than 1000 nodes", nodes_grow()))
            self.assertIsInstance(caught.exception, InvalidMarker)

    def test_too_many_clauses(self):
        hostile = Marker(clauses_grow())
        self.assertFalse(hostile.is_true() or hostile == Marker(SMALL))
        calls = [lambda it: ~~it, Marker.simplify_python_versions, lambda it: it.simplify_extras(["x"])]
        for call in calls:
            with self.assertRaises(TooManyClauses) as caught:
                call(hostile)
            self.assertEqual(caught.exception.message, "more than 100000 clauses")
            self.assertIsInstance(caught.exception, InvalidMarker)

    def test_what_needs_no_bound(self):
        """Making, evaluating and writing a marker, and putting it into others."""
        fowlyore.bounds.nodes = 1000
        for text in (nodes_grow(), clauses_grow()):
            marker = Marker(text)
            self.assertEqual((str(marker), repr(marker)), (text, f"<Marker({text!r})>"))
            self.assertFalse(marker.evaluate({"extra": "a10"}))
            self.assertEqual(str(Requirement(f"a; {text}")), f"a; {text}")
            both, one = marker & Marker("os_name == 'a'"), marker | Marker("os_name == 'a'")
            self.assertTrue(one.evaluate({"os_name": "a"}) and not both.evaluate({"os_name": "a"}))
        again = Marker(nodes_grow())
        self.assertTrue(again == Marker(f" {nodes_grow()} "))

    def test_bounds_that_are_set(self):
        marker = Marker(SMALL)
        self.assertEqual(repr(fowlyore.bounds), "Bounds(nodes=1000000, clauses=100000, cases=None)")
        fowlyore.bounds.nodes = 1
        with self.assertRaises(TooManyNodes):
            marker.is_true()
        self.assertFalse(marker.implies(Marker("extra == 'x'"), nodes=None))
        fowlyore.bounds.nodes, fowlyore.bounds.clauses = None, 1
        with self.assertRaises(TooManyClauses):
            marker.simplify_extras([])
        self.assertEqual(str(marker), SMALL)
        self.assertEqual(repr(fowlyore.bounds), "Bounds(nodes=None, clauses=1, cases=None)")
        fowlyore.bounds.clauses = 2**80
        self.assertIsInstance(marker.simplify_extras([]), Marker)

    def test_a_text_that_is_made_within_other_bounds(self):
        given, normal = "'nt' == os_name and extra == 'a'", "os_name == 'nt' and extra == 'a'"
        for name, most in (("nodes", 1_000_000), ("clauses", 100_000)):
            marker = Marker(given)
            setattr(fowlyore.bounds, name, 0)
            self.assertEqual((str(marker), str(marker)), (given, given))
            setattr(fowlyore.bounds, name, most)
            self.assertEqual((str(marker), str(marker)), (normal, normal))
            setattr(fowlyore.bounds, name, 0)
            self.assertEqual(str(marker), normal)
            setattr(fowlyore.bounds, name, most)
        with mock.patch.object(_native, "marker", wraps=_native.marker) as made:
            marker = Marker(given)
            fowlyore.bounds.clauses = 0
            self.assertEqual((str(marker), repr(marker)), (given, f"<Marker({given!r})>"))
            self.assertEqual(made.call_count, 1)

    def test_what_is_no_bound(self):
        for bound, error in ((-1, ValueError), ("1", TypeError), (1.0, TypeError)):
            for name in ("nodes", "clauses", "cases"):
                with self.assertRaises(error):
                    setattr(fowlyore.bounds, name, bound)
                with self.assertRaises(error):
                    fowlyore.conflicts("a", cases=bound) if name == "cases" else Marker(SMALL).negate(**{name: bound})
        with self.assertRaises(AttributeError):
            fowlyore.bounds.lines = 1


    def test_numbers_that_print_as_others(self):
        fowlyore.bounds.nodes = enum.Enum("numbers", {"two": 2}, type=int).two
        self.assertRegex(repr(fowlyore.bounds), r"^Bounds\(nodes=2, ")

    def test_numbers_without_a_text(self):
        """A number of some thousand digits can't be printed."""
        for name in ("nodes", "clauses", "cases"):
            with self.assertRaisesRegex(ValueError, "^a bound is a number from 0 on or None, not "):
                setattr(fowlyore.bounds, name, -(10**5000))
        with self.assertRaisesRegex(ValueError, "^a bound is a number from 0 on or None, not "):
            Marker("os_name == 'nt'").implies(Marker("os_name == 'nt'"), nodes=-(10**5000))
        fowlyore.bounds.nodes = 10**5000
        self.assertRegex(repr(fowlyore.bounds), r"^Bounds\(nodes=(a value of the type int that has no text|10+), clauses=\d+, ")

    def test_a_text_that_is_made_within_other_bounds_meanwhile(self):
        """Where another thread forgets what this one was refused within, this one doesn't keep the given text as the normal one."""
        class Meanwhile(Marker):
            def _normal_text(self):
                text = super()._normal_text()
                self._beyond = None
                return text

        marker = Meanwhile("'nt' == os_name")
        fowlyore.bounds.nodes = 0
        self.assertEqual(str(marker), "'nt' == os_name")
        fowlyore.bounds.nodes = 1_000_000
        self.assertEqual(str(marker), "os_name == 'nt'")


class ByCall(unittest.TestCase):
    def test_each_bound(self):
        """A bound that is exactly reached answers, and each smaller one is refused by its number."""
        small, other = Marker(SMALL), Marker("extra == 'x' and os_name == 'c'")
        calls = [
            ("nodes", TooManyNodes, lambda **bound: small.is_disjoint(other, **bound)),
            ("nodes", TooManyNodes, lambda **bound: other.implies(small, **bound)),
            *((name, error, call)
              for name, error in (("nodes", TooManyNodes), ("clauses", TooManyClauses))
              for call in (small.negate, small.simplify_python_versions, lambda **bound: small.simplify_extras(["x"], **bound))),
        ]  # fmt: skip
        for name, error, call in calls:
            wanted, least = repr(call(nodes=None, clauses=None) if name == "clauses" else call(nodes=None)), 0
            while True:
                try:
                    self.assertEqual(repr(call(**{name: least})), wanted)
                    break
                except error as caught:
                    self.assertEqual(caught.message, f"more than {least} {name}")
                least += 1
            self.assertGreater(least, 0)
            self.assertEqual(repr(call(**{name: least + 1})), wanted)

    def test_the_marker_that_is_refused(self):
        always, small = Marker("'x' == 'y'"), Marker(SMALL)
        for left, right in ((small, always), (always, small)):
            with self.assertRaises(TooManyNodes) as caught:
                left.implies(right, nodes=0)
            self.assertEqual(caught.exception.text, SMALL)
        self.assertTrue(always.implies(always, nodes=0))

    def test_a_text_at_fault_comes_first(self):
        with self.assertRaises(_native.Fault) as caught:
            _native.marker_truth(b"os_name", 0)
        self.assertNotIsInstance(caught.exception, _native.TooManyNodes)

    def test_threads(self):
        """Each call has its own bound."""
        marker, wrong = Marker(nodes_grow(6)), []

        def ask(bound):
            for _ in range(50):
                try:
                    marker.implies(marker, nodes=bound)
                except TooManyNodes as error:
                    if error.message != f"more than {bound} nodes":
                        wrong.append(error)

        threads = [threading.Thread(target=ask, args=(it,)) for it in (0, 3, 10, None)]
        for it in threads:
            it.start()
        for it in threads:
            it.join()
        self.assertEqual(wrong, [])


class Lists(unittest.TestCase):
    """Bounds of calls on lists."""

    lines = f"b\na>=2 ; {SMALL}\na<1 ; sys_platform == 'z'\n"
    other = f"b\na>=2 ; ({SMALL}) and sys_platform != 'z'\n"

    def bounded(self):
        """Calls, each with the name of a bound, the error beyond it, and the text that this ends in."""
        nodes, clauses, cases = "more than {} nodes", "more than {} clauses", "more than {} cases in all"
        yield lambda **most: fowlyore.matrix(self.lines, [], "", **most), "nodes", TooManyNodes, nodes
        yield lambda **most: fowlyore.matrix_texts(self.lines, [], "", **most), "cases", InvalidInput, cases
        yield lambda **most: fowlyore.same(self.lines, self.other, **most), "nodes", TooManyNodes, nodes
        yield lambda **most: fowlyore.same(self.lines, self.other, **most), "clauses", TooManyClauses, f"{clauses} for a"
        yield lambda **most: fowlyore.same(self.lines, self.other, **most), "cases", InvalidInput, cases
        yield lambda **most: fowlyore.conflicts(self.lines, **most), "nodes", TooManyNodes, nodes
        yield lambda **most: fowlyore.conflicts(self.lines, **most), "cases", InvalidInput, cases
        yield lambda **most: fowlyore.normal(self.lines, **most), "nodes", TooManyNodes, nodes
        yield lambda **most: fowlyore.normal(self.lines, **most), "clauses", TooManyClauses, clauses

    def test_each_bound(self):
        """A bound that is exactly reached answers, and each smaller one is refused by its number."""
        for call, name, kind, told in self.bounded():
            wanted, least = call(**{name: None}), 0
            while True:
                try:
                    self.assertEqual(call(**{name: least}), wanted)
                    break
                except kind as caught:
                    self.assertIsInstance(caught, InvalidInput)
                    self.assertTrue(caught.message.endswith(told.format(least)), caught.message)
                least += 1
            self.assertTrue(0 < least < 100, (name, least))
            self.assertEqual(call(**{name: least + 1}), wanted)

    def test_the_place(self):
        with self.assertRaises(TooManyNodes) as caught:
            fowlyore.same("b", self.lines, nodes=0)
        error = caught.exception
        self.assertEqual((error.input, error.line, error.text), ("right", 2, self.lines.split("\n")[1]))
        self.assertEqual(str(error), "right: line 2: more than 0 nodes")
        with self.assertRaises(TooManyClauses) as caught:
            fowlyore.normal(["b", f"a ; {SMALL}"], clauses=1)
        self.assertEqual((caught.exception.input, caught.exception.line), ("requirements", 2))

    def test_a_text_at_fault_comes_first(self):
        for call in (fowlyore.conflicts, fowlyore.normal, lambda lines, nodes: fowlyore.same(lines, "", nodes=nodes)):
            with self.assertRaises(InvalidInput) as caught:
                call(f"{self.lines}a=1", nodes=0)
            self.assertNotIsInstance(caught.exception, TooManyNodes)

    def test_bounds_that_are_set(self):
        for name, kind in (("nodes", TooManyNodes), ("cases", InvalidInput)):
            self.addCleanup(setattr, fowlyore.bounds, name, getattr(fowlyore.bounds, name))
            setattr(fowlyore.bounds, name, 1)
            with self.assertRaises(kind):
                fowlyore.conflicts(self.lines)
            setattr(fowlyore.bounds, name, None)
            self.assertEqual(len(fowlyore.conflicts(self.lines)), 1)


if __name__ == "__main__":
    unittest.main()
