"""What is assumed of environments, as a marker."""

import random
import unittest

import fowlyore
from fowlyore import InvalidMarker, InvalidSpecifier, Marker, SpecifierSet, assumption

OTHER = (
    "os_name != 'nt' and sys_platform != 'win32' and sys_platform != 'linux' and sys_platform != 'darwin'"
    " and platform_system != 'Windows' and platform_system != 'Linux' and platform_system != 'Darwin'"
)
# os_name, sys_platform and platform_system of interpreters that there are, and of none.
REAL = [
    ("nt", "win32", "Windows"), ("posix", "linux", "Linux"), ("posix", "darwin", "Darwin"), ("posix", "freebsd14", "FreeBSD"),
    ("posix", "cygwin", "CYGWIN_NT-10.0-22631"), ("posix", "android", "Android"), ("posix", "ios", "iOS"),
    ("posix", "emscripten", "Emscripten"), ("posix", "wasi", "wasi"), ("java", "java1.8.0_51", "Java"),
]  # fmt: skip
UNREAL = [("nt", "linux", "Linux"), ("posix", "win32", "Windows"), ("posix", "linux", "Darwin"), ("nt", "win32", "Linux")]


def environment(os_name: str, sys_platform: str, platform_system: str, python: str = "3.11.4") -> dict:
    release = ".".join(python.split(".")[:2])
    return dict(
        fowlyore.default_environment(), os_name=os_name, sys_platform=sys_platform, platform_system=platform_system,
        python_full_version=python, python_version=release, extra="",
    )  # fmt: skip


class Assumptions(unittest.TestCase):
    def test_texts(self):
        windows = "os_name == 'nt'"
        self.assertIsNone(assumption())
        self.assertIsNone(assumption(python=""))
        for made, text in (
            (assumption(windows), windows),
            (assumption(Marker(windows)), windows),
            (assumption(python=">=3.9"), "python_full_version >= '3.9'"),
            (assumption(python="<3.13, >=3.9"), "(python_full_version >= '3.9') and (python_full_version < '3.13')"),
            (assumption(python=SpecifierSet("==3.9.*")), "python_full_version == '3.9.*'"),
            (assumption(windows, fowlyore.Specifier("!=3.9")), f"({windows}) and (python_full_version != '3.9')"),
        ):
            self.assertEqual(made._given, text)
        self.assertTrue(assumption(real=True)._given.endswith(OTHER))
        self.assertEqual(assumption(windows, ">=3", True)._given,
                         f"({windows}) and (python_full_version >= '3') and ({assumption(real=True)._given})")  # fmt: skip

    def test_refused(self):
        for marker in ("", "bad", "os_name == 'a') or (os_name == 'b'"):
            with self.assertRaises(InvalidMarker) as caught:
                assumption(marker, "bad")
            self.assertEqual(caught.exception.text, marker)
        with self.assertRaises(InvalidSpecifier):
            assumption("os_name == 'a'", ">=3.9,3.10")
        with self.assertRaisesRegex(InvalidMarker, "==="):
            assumption(python="===3.9")

    def test_python_versions_are_those_that_the_specifiers_accept(self):
        draw = random.Random(1)
        versions = ["3.7.0", "3.8.18", "3.9.0", "3.9.1", "3.10.0", "3.11.4", "3.13.0"]
        for _ in range(300):
            operators = draw.choices(["<", "<=", ">", ">=", "==", "!=", "~="], k=draw.randint(1, 3))
            members = [f"{it}{draw.choice(['3.8', '3.9', '3.9.1', '3.10', '3.11.4'])}" for it in operators]
            accepted, marker = SpecifierSet(",".join(members)), assumption(python=",".join(members))
            for it in versions:
                holds = marker.evaluate(environment("posix", "linux", "Linux", it))
                self.assertEqual(holds, accepted.contains(it), (members, it))

    def test_real_interpreters_break_none(self):
        real = assumption(real=True)
        for it in REAL:
            self.assertTrue(real.evaluate(environment(*it)), it)
        for it in UNREAL:
            self.assertFalse(real.evaluate(environment(*it)), it)

    def test_lists(self):
        """What is assumed together is assumed one after another."""
        draw = random.Random(2)
        keys = ["os_name == 'nt'", "sys_platform == 'win32'", "platform_system == 'Linux'", "python_version < '3.9'", "extra == 'a'"]
        for _ in range(100):
            lines = [f"foo{draw.choice(['<1', '>=1', '>2'])} ; {draw.choice(keys)}" for _ in range(3)]
            marker, python = draw.choice(keys), draw.choice([">=3.8", "<3.9,>=3.7"])
            assumed = assumption(marker, python, True)
            one_by_one = Marker(marker) & assumption(python=python) & assumption(real=True)
            self.assertEqual(assumed, one_by_one)
            self.assertEqual(fowlyore.conflicts(lines, assume=assumed), fowlyore.conflicts(lines, assume=one_by_one), lines)


if __name__ == "__main__":
    unittest.main()
