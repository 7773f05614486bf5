"""Properties that are computed when they are first asked for."""

import threading
import unittest

from fowlyore._cached import cached_property


class Slow:
    """Its value is computed by both of two threads before either stores it."""

    def __init__(self):
        self.both = threading.Barrier(2, timeout=300)

    @cached_property
    def value(self):
        """A value."""
        self.both.wait()
        return object()


class Cached(unittest.TestCase):
    def test_threads_are_given_one_value(self):
        slow, found = Slow(), []
        threads = [threading.Thread(target=lambda: found.append(slow.value)) for _ in range(2)]
        for it in threads:
            it.start()
        for it in threads:
            it.join()
        self.assertEqual(len(found), 2)
        self.assertIs(found[0], found[1])
        self.assertIs(slow.value, found[0])

    def test_set_and_deleted(self):
        slow = Slow()
        slow.value = 1
        self.assertEqual(slow.value, 1)
        del slow.value
        threading.Thread(target=slow.both.wait).start()
        again = slow.value
        self.assertIs(slow.value, again)

    def test_of_the_class(self):
        self.assertEqual((Slow.value.__doc__, Slow.value.name), ("A value.", "value"))
