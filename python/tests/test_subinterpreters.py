"""Several interpreters in one process (PEP 684, PEP 734), from Python 3.13 on.

Those that share a lock use the extension, and those with a lock of their own ctypes.
"""

import importlib.util
import os
import pathlib
import shutil
import subprocess
import sys
import tempfile
import unittest

from fowlyore import _native

PACKAGE = pathlib.Path(_native.__file__).parent
EXTENSION = getattr(_native.extension, "__file__", None)
ASKED = """
import sys
sys.path.insert(0, {folder!r})
import fowlyore
from fowlyore import _native
assert [str(it) for it in sorted(map(fowlyore.Version, ["2", "1.0rc1", "1.0"]))] == ["1.0rc1", "1.0", "2"]
assert list(fowlyore.SpecifierSet(">=1").filter(["0", "1", "2"])) == ["1", "2"]
assert fowlyore.Marker("os_name == 'x'").evaluate({{"os_name": "x"}})
assert fowlyore.same("a>=1", "a >= 1")
print(_native.how(), flush=True)
"""
MANY = """
import _interpreters
asked = {asked!r}
exec(asked)
for kind in ("legacy", "isolated", "legacy", "isolated"):
    one = _interpreters.create(kind)
    failed = _interpreters.exec(one, asked)
    assert failed is None, failed.formatted
    _interpreters.destroy(one)
exec(asked)
"""


class Subinterpreters(unittest.TestCase):
    def test_each_kind(self):
        if importlib.util.find_spec("_interpreters") is None:
            self.assertLess(sys.version_info, (3, 13))
            return
        with tempfile.TemporaryDirectory() as folder:
            shutil.copytree(PACKAGE, os.path.join(folder, "fowlyore"), ignore=shutil.ignore_patterns("__pycache__"))
            shutil.copyfile(_native.path(), os.path.join(folder, "fowlyore", "libreqs.so"))
            if EXTENSION:
                shutil.copyfile(EXTENSION, os.path.join(folder, "fowlyore", "_extension.abi3.so"))
            script = MANY.format(asked=ASKED.format(folder=folder))
            asked = [sys.executable, "-I", "-c", script]
            ran = subprocess.run(asked, stdout=subprocess.PIPE, stderr=subprocess.STDOUT, encoding="utf-8")
        shared = _native.how()
        wanted = [shared, shared, "ctypes", shared, "ctypes", shared]
        self.assertEqual((ran.returncode, ran.stdout.split()), (0, wanted), ran.stdout)
