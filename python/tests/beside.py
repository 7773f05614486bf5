"""packaging 26.2, which tests compare with where FOWLYORE_PACKAGING names a folder that has it."""

import importlib
import os
import sys
import types
import unittest
from unittest import mock

WANTED = "26.2"
MODULES = ("version", "specifiers", "markers", "requirements", "utils")
FOLDER = os.environ.get("FOWLYORE_PACKAGING")
where_it_is = unittest.skipUnless(FOLDER, f"FOWLYORE_PACKAGING names no folder with packaging {WANTED}")


def packaging():
    """Its modules, beside those of any other packaging that is loaded."""
    others = [it for it in sys.modules if it.split(".")[0] == "packaging"]
    with mock.patch.dict(sys.modules), mock.patch.object(sys, "path", [FOLDER, *sys.path]):
        for it in others:
            del sys.modules[it]
        found = importlib.import_module("packaging")
        if found.__version__ != WANTED:
            raise AssertionError(f"FOWLYORE_PACKAGING has packaging {found.__version__}, not {WANTED}")
        return types.SimpleNamespace(**{it: importlib.import_module(f"packaging.{it}") for it in MODULES})
