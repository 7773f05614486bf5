"""What the package says of the library, held against its header."""

import ctypes
import ctypes.util
import os
import pathlib
import re
import subprocess
import sys
import unittest

from fowlyore import _native

HEADER = pathlib.Path(__file__).resolve().parents[2] / "include" / "reqs.h"
TYPES = {"uint32_t": ctypes.c_uint32, "int64_t": ctypes.c_int64, "reqs_reply": _native.Reply}
TEXT, ROOM = [ctypes.c_char_p, ctypes.c_size_t], [ctypes.c_void_p, ctypes.c_size_t]
# What the package doesn't call: versions compare by keys that it makes, and its answers are values.
UNUSED = {
    "reqs_version_order", *(f"reqs_{it}_json" for it in ("check", "matrix", "same", "covers", "conflicts", "normal")),
    *(f"reqs_{it}_where_json" for it in ("same", "covers", "conflicts")),
}  # fmt: skip


def prototypes():
    """Of each function of the header its result and its arguments' types."""
    text = re.sub(r"/\*.*?\*/", "", HEADER.read_text(), flags=re.S)
    for result, name, arguments in re.findall(r"^(\w+) (reqs_\w+)\(([^)]*)\);", text, flags=re.M):
        types = []
        for it in re.split(r"\s*,\s*", " ".join(arguments.split())):
            if it.startswith("const uint8_t *"):
                types += TEXT
            elif it.startswith("uint8_t *"):
                types += ROOM
            elif it.startswith("uint64_t") or it in ("size_t nodes", "size_t clauses"):
                types.append(ctypes.c_uint64)
        yield name, TYPES[result], types


@unittest.skipUnless(HEADER.exists(), "there is no include/reqs.h")
class Header(unittest.TestCase):
    def test_each_function(self):
        called = _native.DECLARED
        found = dict((name, (result, types)) for name, result, types in prototypes())
        self.assertEqual(set(found) - set(called), UNUSED)
        for name, call in called.items():
            self.assertEqual((call.restype, list(call.argtypes or [])), found[name], name)

    def test_the_reply(self):
        members = re.search(r"typedef struct reqs_reply \{(.*?)\}", HEADER.read_text(), re.S)[1]
        members = re.sub(r"/\*.*?\*/", "", members, flags=re.S)
        self.assertEqual(re.findall(r"(\w+);", members), [name for name, _ in _native.Reply._fields_])

    def test_the_interface(self):
        self.assertEqual(int(re.search(r"#define REQS_ABI (\d+)", HEADER.read_text())[1]), _native.ABI)


class Loading(unittest.TestCase):
    def test_another_library(self):
        others = [("/no/such/library.so", "can't load"), (__file__, "can't load")]
        others += [(it, "can't call") for it in [ctypes.util.find_library("c")] if it]
        for path, said in others:
            environment = {**os.environ, "FOWLYORE_LIBRARY": path}
            ran = subprocess.run([sys.executable, "-c", "import fowlyore"], env=environment, stderr=subprocess.PIPE)
            self.assertNotEqual(ran.returncode, 0)
            self.assertIn(f"ImportError: fowlyore {said}".encode(), ran.stderr)

    def test_a_library_without_a_younger_call(self):
        lacking = _native._call_if_there("reqs_of_another_year", 1, numbers=0, long=1)
        for _ in range(2):
            with self.assertRaisesRegex(ImportError, "can't call its library: .*reqs_of_another_year"):
                lacking(b"a")

    def test_an_isolated_interpreter(self):
        """It takes the library beside the package's modules, or says that there is none, whatever the variable names."""
        package = pathlib.Path(_native.__file__).resolve().parent
        code = f"""
import sys
sys.path.insert(0, {str(package.parent)!r})
try:
    from fowlyore import _native
    print(_native.path())
except ImportError as error:
    print(error.path)
"""
        environment = {**os.environ, "FOWLYORE_LIBRARY": "/no/such/library.so", "PYTHONDONTWRITEBYTECODE": "1"}
        for words, wanted in ((["-I"], package / "libreqs.so"), (["-E"], package / "libreqs.so"), ([], "/no/such/library.so")):
            ran = subprocess.run([sys.executable, *words, "-B", "-c", code], env=environment, stdout=subprocess.PIPE)
            self.assertEqual((ran.returncode, ran.stdout.decode()), (0, f"{wanted}\n"), words)
