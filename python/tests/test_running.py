"""The running interpreter's environment, which is kept while all that it is made of is the same."""

import json
import os
import platform
import sys
import types
import unittest
from unittest import mock

from fowlyore import Marker, default_environment, markers

IMPLEMENTATION = types.SimpleNamespace(**{**vars(sys.implementation), "name": "other"})
PATCHES = {
    "os_name": lambda: mock.patch.object(os, "name", "other"),
    "sys_platform": lambda: mock.patch.object(sys, "platform", "other"),
    "implementation_name": lambda: mock.patch.object(sys, "implementation", IMPLEMENTATION),
    "platform_machine": lambda: mock.patch("platform.machine", return_value="other"),
    "platform_release": lambda: mock.patch("platform.release", lambda: "other"),
    "platform_system": lambda: mock.patch("platform.system", return_value="other"),
    "platform_version": lambda: mock.patch.object(platform, "uname", lambda: platform_of(version="other")),
    "platform_python_implementation": lambda: mock.patch("platform.python_implementation", return_value="other"),
}


def platform_of(**values):
    return types.SimpleNamespace(**{**{it: getattr(OWN, it) for it in ("machine", "release", "system", "version")}, **values})


OWN = platform.uname()


def holds(name, value):
    return Marker(f"{name} == {value!r}").evaluate()


class Kept(unittest.TestCase):
    def test_each_value_that_is_patched(self):
        for name, patch in PATCHES.items():
            own = default_environment()[name]
            for _ in range(2):
                self.assertEqual((holds(name, own), holds(name, "other")), (True, False), name)
                with patch():
                    self.assertEqual((holds(name, own), holds(name, "other")), (False, True), name)
                    self.assertEqual(Marker(f"{name} == 'other'").evaluate({"extra": "x"}), True, name)

    def test_the_version(self):
        self.assertFalse(Marker("python_full_version == '3.99.1'").evaluate())
        with mock.patch("platform.python_version", return_value="3.99.1"), mock.patch(
            "platform.python_version_tuple", return_value=("3", "99", "1")
        ):
            self.assertTrue(Marker("python_full_version == '3.99.1' and python_version == '3.99'").evaluate())

    def test_a_function_that_answers_otherwise_each_time(self):
        with mock.patch("platform.machine", side_effect=["a", "b"]):
            self.assertEqual((holds("platform_machine", "a"), holds("platform_machine", "b")), (True, True))

    def test_what_makes_the_environment(self):
        changed = {**default_environment(), "os_name": "other"}
        with mock.patch.object(markers, "default_environment", return_value=changed):
            self.assertTrue(holds("os_name", "other"))
        self.assertFalse(holds("os_name", "other"))

    def test_what_the_interpreter_keeps(self):
        """`platform` keeps what the system said once, and may be told to ask again."""
        self.assertTrue(holds("platform_machine", platform.machine()))
        kept = OWN._replace(machine="other") if sys.version_info < (3, 9) else type(OWN)(*list(OWN)[:4], "other")
        with mock.patch.object(platform, "_uname_cache", kept):
            self.assertTrue(holds("platform_machine", "other"))

    def test_it_is_not_changed_by_callers(self):
        environment = markers.completed({"os_name": "other"})
        environment["sys_platform"] = "other"
        self.assertFalse(holds("sys_platform", "other") or holds("os_name", "other"))


class Texts(unittest.TestCase):
    """The JSON of environments with the same values is kept."""

    def test_values_that_are_equal_and_others(self):
        base = default_environment()
        self.assertEqual(json.loads(markers.environment_json({**base, "os_name": "a"}))["os_name"], "a")
        kept = markers.environment_json(dict(base))
        self.assertIs(markers.environment_json({**base, "extra": "x"}), kept)
        for value in (1, True, 1.0, None):
            self.assertEqual(json.loads(markers.environment_json({**base, "os_name": value}))["os_name"], value)
            self.assertIs(type(json.loads(markers.environment_json({**base, "os_name": value}))["os_name"]), type(value))

    def test_mappings_that_answer_otherwise_each_time(self):
        """Each is read once, so that no answer is kept by other values than it was made of."""
        class Keys:
            count = 0

            def keys(self):
                Keys.count += 1
                return ["os_name"]

            def __getitem__(self, key):
                return f"odd{Keys.count}"

        class Items(dict):
            def items(self):
                return [("os_name", "odd-items")]

            def get(self, key, default=None):
                return super().get(key, "odd-get")

        marker = Marker("os_name == 'odd1'")
        self.assertTrue(marker.evaluate(Keys()))
        self.assertFalse(marker.evaluate({"os_name": "odd2"}))
        self.assertTrue(marker.evaluate({"os_name": "odd1"}))
        self.assertTrue(marker.evaluate(Items(os_name="odd1")))
        self.assertTrue(Marker("os_name == 'odd-items'").evaluate({"os_name": "odd-items"}))
        base = default_environment()
        del base["os_name"]
        markers.environment_json(Items(base))
        self.assertEqual(json.loads(markers.environment_json({**base, "os_name": "odd-get"}))["os_name"], "odd-get")

    def test_texts_that_are_equal_to_others(self):
        """Answers on others aren't given for them."""
        class Odd(str):
            def __eq__(self, other):
                return True

            def __hash__(self):
                return hash("nt")

        marker = Marker("os_name == 'nt'")
        self.assertTrue(marker.evaluate({"os_name": "nt"}))
        self.assertFalse(marker.evaluate({"os_name": Odd("posix")}))
        self.assertTrue(marker.evaluate({"os_name": Odd("nt")}))

    def test_many(self):
        base = default_environment()
        for it in range(1000):
            self.assertEqual(json.loads(markers.environment_json({**base, "os_name": str(it)}))["os_name"], str(it))
        self.assertLess(len(markers._kept_json), 100)

    def test_long_ones_are_not_kept(self):
        """Who evaluates markers of others keeps none of their texts that may be as long as they like."""
        long = "a" * 100_000
        before = [len(it) for it in (markers._kept_json, markers._kept_given, markers._kept_answers)]
        self.assertFalse(holds("os_name", long))
        self.assertTrue(Marker(f"os_name == '{long}'").evaluate({"os_name": long}))
        self.assertFalse(Marker("extra == 'b'").evaluate({"extra": long}))
        kept = [*markers._kept_json, *markers._kept_given, *markers._kept_answers]
        self.assertFalse([it for it in kept if long in repr(it)])
        self.assertLessEqual(len(kept), sum(before) + 3)
