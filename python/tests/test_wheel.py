"""The wheel, by core metadata 2.1, PEP 425 (tags) and PEP 427 (its files)."""

import base64
import email
import hashlib
import os
import pathlib
import re
import tempfile
import unittest
import zipfile
from unittest import mock

import backend
from fowlyore import __version__, _native

TOP = pathlib.Path(__file__).resolve().parents[2]
PAGE = (TOP / "docs" / "PYTHON.md").read_text(encoding="utf-8")
# The fields of core metadata 2.1.
FIELDS = set(
    "Metadata-Version Name Version Platform Supported-Platform Summary Description Description-Content-Type Keywords Home-page "
    "Download-URL Author Author-email Maintainer Maintainer-email License Classifier Requires-Dist Requires-Python "
    "Requires-External Project-URL Provides-Extra Provides-Dist Obsoletes-Dist".split()
)


class Metadata(unittest.TestCase):
    def setUp(self):
        self.said = email.message_from_string(backend.information()["METADATA"].decode())

    def test_each_field_arrives(self):
        self.assertEqual(self.said.defects, [])
        self.assertLessEqual(set(self.said.keys()), FIELDS)
        self.assertEqual(self.said.get_payload(), PAGE)

    def test_what_they_say(self):
        wanted = {
            "Metadata-Version": "2.1",
            "Name": "fowlyore",
            "Version": __version__,
            "License": "Apache-2.0 OR BSD-2-Clause",
            "Requires-Python": ">=3.8",
            "Description-Content-Type": "text/markdown",
        }
        for name, value in wanted.items():
            self.assertEqual(self.said.get_all(name), [value], name)
        self.assertRegex(self.said["Summary"], r"\A[^\n]{20,}\Z")
        self.assertLessEqual({"requirements", "markers", "PEP 440", "PEP 508"}, set(self.said["Keywords"].split(",")))

    def test_classifiers(self):
        said = self.said.get_all("Classifier")
        self.assertLessEqual({"Operating System :: POSIX :: Linux", "Typing :: Typed"}, set(said))
        self.assertEqual(len(said), len(set(said)))
        fronts = [it.split(" :: ")[0] for it in said]
        self.assertEqual(fronts.count("Development Status"), 1)
        self.assertLessEqual({"Topic", "Intended Audience", "License"}, set(fronts))
        versions = [it for it in said if re.fullmatch(r"Programming Language :: Python :: 3\.\d+", it)]
        self.assertEqual(versions[0], "Programming Language :: Python :: 3.8")

    def test_files_that_the_page_names(self):
        """A wheel has none of them, so each is said to be the repository's."""
        named = list(re.finditer(r"`([\w/-]+\.(?:md|py|txt|json))`", PAGE))
        self.assertTrue(named)
        for it in named:
            self.assertTrue((TOP / it[1]).is_file(), it[1])
            self.assertRegex(PAGE[: it.start()], r"[Tt]he repository's\s\Z", it[1])


class Wheel(unittest.TestCase):
    def setUp(self):
        folder = tempfile.TemporaryDirectory()
        self.addCleanup(folder.cleanup)
        with mock.patch.dict(os.environ, REQS_LIBRARY=_native.path()):
            self.name = backend.build_wheel(folder.name)
        self.wheel = zipfile.ZipFile(os.path.join(folder.name, self.name))
        self.addCleanup(self.wheel.close)
        self.information = f"fowlyore-{__version__}.dist-info"

    def test_tags(self):
        """The file's name has all tags in one, and the file WHEEL a line of each."""
        front, version, *sets = self.name[: -len(".whl")].split("-")
        self.assertEqual((front, version), ("fowlyore", __version__))
        pythons, abis, platforms = (it.split(".") for it in sets)
        self.assertEqual(platforms, ["manylinux_2_17_x86_64", "manylinux2014_x86_64"])
        tags = {f"{python}-{abi}-{platform}" for python in pythons for abi in abis for platform in platforms}
        said = email.message_from_bytes(self.wheel.read(f"{self.information}/WHEEL")).get_all("Tag")
        self.assertEqual(sorted(said), sorted(tags))
        if backend.extension():
            self.assertIn(f"pip install {self.name}\n", PAGE)
            self.assertLessEqual({f"{tag}-{platforms[0]}" for tag in ("cp310-abi3", "py3-none")}, tags)
            self.assertEqual(self.wheel.read("fowlyore/_extension.abi3.so")[:4], b"\x7fELF")

    def test_no_toolchain(self):
        """One sentence says what to install instead, and nothing is left of a wheel."""
        with tempfile.TemporaryDirectory() as folder, mock.patch.dict(os.environ, PATH=folder):
            os.environ.pop("REQS_LIBRARY", None)
            for it in (backend.get_requires_for_build_wheel, lambda: backend.build_wheel(folder)):
                with self.assertRaisesRegex(SystemExit, r"\A[^\n]*the command rt is not on the PATH: [^\n]*install [^\n]*\Z"):
                    it()
            self.assertEqual(os.listdir(folder), [])
            with mock.patch.dict(os.environ, REQS_LIBRARY=_native.path()):
                self.assertEqual(backend.get_requires_for_build_wheel(), [])

    def test_files(self):
        """RECORD names each with its sum, and there are the package's and the licences."""
        record = f"{self.information}/RECORD"
        lines = [it.rsplit(",", 2) for it in self.wheel.read(record).decode().split("\n")[:-1]]
        self.assertEqual([it[0] for it in lines], self.wheel.namelist())
        for name, digest, size in lines[:-1]:
            data = self.wheel.read(name)
            told = base64.urlsafe_b64encode(hashlib.sha256(data).digest()).rstrip(b"=").decode()
            self.assertEqual((digest, size), (f"sha256={told}", str(len(data))), name)
        self.assertEqual(lines[-1], [record, "", ""])
        names = {"fowlyore/libreqs.so", "fowlyore/py.typed", "fowlyore/lists.py"}
        names.update(f"{self.information}/{it}" for it in ("METADATA", "LICENSE-APACHE", "LICENSE-BSD", "entry_points.txt"))
        self.assertLessEqual(names, set(self.wheel.namelist()))
