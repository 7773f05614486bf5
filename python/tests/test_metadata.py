"""Core metadata: in files, wheels, source archives, folders, and of what is installed; and candidates that files offer."""

import enum
import importlib.metadata
import io
import json
import os
import random
import sys
import tarfile
import types
import unittest
import zipfile
from unittest import mock

from fowlyore import InvalidInput, LeftOut, Place, check, core_metadata, read, read_candidates, wheelhouse
from fowlyore.utils import Tag
from tests.test_command import run
from tests.test_files import ENVIRONMENT, InFolder

ROUNDS = 100
METADATA = """Metadata-Version: 2.1
Name: app
Version: 1.0
Summary: an app
  that says: something
Provides-Extra: Gui_Extra
Requires-Python: >=3.8
Requires-Dist: foo (>=1)
Requires-Dist: bar>=1 ;
        extra == 'gui-extra'
requires-dist: baz

Requires-Dist: none of it
"""
DYNAMIC = METADATA.replace("2.1", "2.4", 1).replace(
    "Version: 1.0\n", "Version: 1.0\nDynamic: Requires-Dist\nDynamic: Summary\n"
)
LINES = [("foo (>=1)", 8), ("bar>=1 ; extra == 'gui-extra'", 9), ("baz", 11)]
REQUIRES = (
    "foo>=1\n\n[gui]\nbar\n\n[:os_name == 'nt' or os_name == 'x']\nbaz\n\n[gui:os_name == 'nt']\nqux ; python_version > '3'\n"
)


class OfMetadata(InFolder):
    def lines(self, listing):
        return [(it.text, it.place.line) for it in listing.lines]

    def wheel(self, name, **files):
        path = self.folder / name
        with zipfile.ZipFile(path, "w") as wheel:
            for at, data in files.items():
                wheel.writestr(at.replace("__", "/"), data)
        return path

    def archive(self, name, files, kind="w:gz"):
        path = self.folder / name
        with tarfile.open(path, kind) as archive:
            for at, text in files.items():
                data = text.encode()
                member = tarfile.TarInfo(at)
                member.size = len(data)
                archive.addfile(member, io.BytesIO(data))
        return path

    def message(self, path):
        error = self.refused(read, path)
        return self.said(error), os.path.relpath(error.path, self.folder), error.line


class Metadata(OfMetadata):
    def test_files(self):
        for name in ("METADATA", "PKG-INFO"):
            for data in (METADATA, METADATA.replace("\n", "\r\n")):
                path = self.folder / name
                path.write_bytes(data.encode())
                listing = read(path)
                self.assertEqual((self.lines(listing), listing.provided_extras, listing.left_out), (LINES, ("gui-extra",), ()))
                self.assertEqual([(it.text, it.place.line) for it in listing.assumed], [(">=3.8", 7)])
        self.assertEqual([str(it) for it in check(listing, ENVIRONMENT, "", "gui_extra")], ["bar none", "baz none", "foo none"])

    def test_extras_of_its_own(self):
        """As an extra `all` has them."""
        path = self.folder / "METADATA"
        path.write_text(
            "Name: App_x\nRequires-Dist: foo\nRequires-Dist: app-x[gui,cli] ; extra == 'all'\nProvides-Extra: all\n"
            "Provides-Extra: gui\nRequires-Dist: bar ; os_name == 'posix' and extra == \"Gui\"\n"
        )
        listing = read(path)
        bar = "bar ; os_name == 'posix' and (extra == 'gui' or extra == 'all')"
        self.assertEqual(self.lines(listing), [("foo", 2), (bar, 6)])
        said = LeftOut("app-x[gui,cli] ; extra == 'all'", Place(str(path), 3), "there is no extra cli")
        self.assertEqual(listing.left_out, (said,))
        self.assertEqual([it.name for it in check(listing, ENVIRONMENT, "", "all")], ["bar", "foo"])

    def test_wheels(self):
        path = self.wheel("app-1.0-py3-none-any.whl", **{"app-1.0.dist-info__METADATA": METADATA, "app__METADATA": "no"})
        listing = read(path)
        self.assertEqual(self.lines(listing), LINES)
        self.assertEqual(listing.lines[0].place.path, f"{path}/app-1.0.dist-info/METADATA")

    def test_source_archives(self):
        files = {"app-1.0/PKG-INFO": METADATA, "app-1.0/app.egg-info/PKG-INFO": "no"}
        path = self.archive("app-1.0.tar.gz", files)
        listing = read(path)
        self.assertEqual(self.lines(listing), LINES)
        why = "metadata before 2.2 doesn't say what a wheel of it requires"
        left_out = LeftOut("what the build asks for", Place(f"{path}/app-1.0/PKG-INFO"), why)
        self.assertEqual(listing.left_out, (left_out,))
        listing = read(self.archive("app-1.0.tar.gz", {"./app-1.0/PKG-INFO": DYNAMIC}))
        self.assertEqual([(it.what, it.place.line) for it in listing.left_out], [("Requires-Dist", 4)])
        listing = read(self.archive("app-1.0.tar.gz", {"a/PKG-INFO": "Name: a\n", "a/src/a.egg-info/requires.txt": "foo\n"}))
        self.assertEqual(self.lines(listing), [("foo", 1)])

    def test_many_metadata_in_source_archives(self):
        """Of several no more than the first is read."""
        path = self.archive("app-1.0.tar.gz", {f"app{it}/PKG-INFO": METADATA for it in range(9)})
        with mock.patch("fowlyore.core_metadata.read_some", wraps=core_metadata.read_some) as reading:
            self.assertEqual(self.message(path)[0], "there are 9 files PKG-INFO, and one is wanted")
        self.assertEqual(reading.call_count, 1)

    def test_links_in_source_archives(self):
        path = self.folder / "app-1.0.tar.gz"
        with tarfile.open(path, "w:gz") as archive:
            member = tarfile.TarInfo("app-1.0/PKG-INFO")
            member.type, member.linkname = tarfile.SYMTYPE, "nowhere"
            archive.addfile(member)
        self.assertEqual(self.message(path)[0], "there is no file PKG-INFO")

    def test_what_is_dynamic(self):
        """Of a file that a build has made it says where a value came from, and nothing is left out."""
        for name, said in (("METADATA", []), ("PKG-INFO", ["Requires-Dist"])):
            path = self.folder / name
            path.write_text(DYNAMIC)
            self.assertEqual([it.what for it in read(path).left_out], said)

    def test_descriptions(self):
        """They may be in any encoding."""
        path = self.folder / "METADATA"
        for end in (b"\n", b"\r\n"):
            path.write_bytes(end.join([b"Name: a", b"Requires-Dist: b", b"", b"\xff", b"", b"Requires-Dist: c"]))
            self.assertEqual(self.lines(read(path)), [("b", 2)])

    def test_ends_of_lines(self):
        """They are those of the module for messages, which reads metadata too: also a carriage return alone."""
        for end in ("\n", "\r\n", "\r"):
            lines = ["Name: a", "Requires-Dist: foo", " >=1", "Requires-Dist: bar", "", "Requires-Dist: not", ""]
            path = self.folder / "METADATA"
            path.write_bytes(end.join(lines).encode() + b"\xff")
            self.assertEqual(self.lines(read(path)), [("foo >=1", 2), ("bar", 4)], ascii(end))

    def test_folders(self):
        for name, file in (("app-1.0.dist-info", "METADATA"), ("app.egg-info", "PKG-INFO")):
            folder = self.folder / name
            folder.mkdir()
            (folder / file).write_text(METADATA)
            (folder / "requires.txt").write_text("other\n")
            self.assertEqual(self.lines(read(folder)), LINES)
            self.assertEqual(self.lines(read(f"{folder}{os.sep}")), LINES)
        path = self.folder / "single.egg-info"
        path.write_text(METADATA)
        self.assertEqual(self.lines(read(path)), LINES)

    def test_requires_of_an_egg(self):
        folder = self.folder / "app.egg-info"
        folder.mkdir()
        (folder / "PKG-INFO").write_text("Metadata-Version: 1.2\nName: app\n")
        (folder / "requires.txt").write_text(REQUIRES)
        listing = read(folder)
        self.assertEqual(
            self.lines(listing),
            [
                ("foo>=1", 1),
                ("bar ; extra == 'gui'", 4),
                ("baz ; (os_name == 'nt' or os_name == 'x')", 7),
                ("qux ;( python_version > '3') and (os_name == 'nt') and extra == 'gui'", 10),
            ],
        )
        self.assertEqual((listing.provided_extras, listing.lines[0].place.path), (("gui",), str(folder / "requires.txt")))
        for section, said in (("[a b]", "'a b' is no name"), ("[:os_name == 'a') or (os_name == 'b']", "")):
            (folder / "requires.txt").write_text(f"foo\n{section}\nbar\n")
            error = self.refused(read, folder)
            self.assertTrue(self.said(error).startswith(f"line 2{': ' + said if said else ', byte '}"), error)
            self.assertEqual((error.line, error.path), (2, str(folder / "requires.txt")))

    def test_installed(self):
        """Each distribution that is installed has the lines that importlib.metadata tells."""
        found = 0
        for it in importlib.metadata.distributions():
            told = [" ".join(line.split()) for line in it.requires or ()]
            try:
                listing = read(it)
            except InvalidInput:
                continue
            if not any(line.place.path.endswith("requires.txt") for line in listing.lines):
                self.assertEqual([" ".join(line.text.split()) for line in listing.lines], told, it.metadata["Name"])
                found += 1
        self.assertGreater(found, 0)

    def test_installed_in_other_ways(self):
        folder, single = self.folder / "app.egg-info", self.folder / "other.egg-info"
        folder.mkdir()
        (folder / "PKG-INFO").write_text("Name: app\n")
        (folder / "requires.txt").write_text("foo\n")
        single.write_text("Name: other\nRequires-Dist: bar\n")
        lines = [self.lines(read(importlib.metadata.PathDistribution(it))) for it in (folder, single)]
        self.assertEqual(lines, [[("foo", 1)], [("bar", 2)]])
        (folder / "PKG-INFO").write_bytes(b"Name: \xff\n")
        error = self.refused(read, importlib.metadata.PathDistribution(folder))
        self.assertEqual(self.said(error), "not UTF-8 at byte 6 of the file")
        error = self.refused(read, importlib.metadata.PathDistribution(single), groups="x")
        self.assertEqual(self.said(error), "dependency groups are read of a pyproject.toml or a lock file alone")

    def test_faults(self):
        path = self.folder / "METADATA"
        for text, said, line in (
            (
                "Name: a\nRequires-Dist: foo # c\n",
                "line 2, byte 4, length 3\na requirement has no comment\nfoo # c\n    ^^^",
                2,
            ),
            ("Name: a\n\n", None, None),
            ("Name: a\nno field\n", "line 2: a field is wanted: a name, a colon and a value", 2),
            (" x\n", "line 1: a field is wanted: a name, a colon and a value", 1),
            ("Version: 1\n", "there is no field Name, and so this is no core metadata", None),
            ("", "there is no field Name, and so this is no core metadata", None),
            (b"Name: a\n\xff: b\n", "line 2: not UTF-8 at byte 8 of the file", 2),
        ):
            path.write_bytes(text if isinstance(text, bytes) else text.encode())
            if said is None:
                self.assertEqual(read(path).lines, [])
                continue
            message, name, number = self.message(path)
            front = "" if said.startswith("line") or line is None else f"line {line}: "
            self.assertEqual((message, name, number), (f"{front}{said}", "METADATA", line))
        path.write_text("Name: a\nRequires-Dist: b\nRequires-Dist: foo=1\n")
        error = self.refused(check, read(path), ENVIRONMENT, "")
        self.assertTrue(self.said(error).startswith("line 3, byte 3, length "), error)
        self.assertEqual((error.line, error.path), (3, str(path)))

    def test_what_is_left_out(self):
        path = self.folder / "METADATA"
        path.write_text("Name: a\nRequires-Python: >=3.6.*\nProvides-Extra: a b\nProvides-Extra: c \nRequires-Dist: b\n")
        listing = read(path)
        said = [("requires-python >=3.6.*", "it can't be read", 2), ("a b", "no name of an extra", 3)]
        self.assertEqual([(it.what, it.why, it.place.line) for it in listing.left_out], said)
        self.assertEqual((self.lines(listing), listing.provided_extras, listing.assumed), ([("b", 5)], ("c",), ()))

    def test_faults_of_archives(self):
        name = "app-1.0-py3-none-any.whl"
        self.assertEqual(self.message(self.wheel(name, x="")), ("there is no file METADATA", name, None))
        two = self.wheel(name, **{"a.dist-info__METADATA": "", "b.dist-info__METADATA": ""})
        self.assertEqual(self.message(two), ("there are 2 files METADATA, and one is wanted", name, None))
        (self.folder / name).write_bytes(b"no zip file")
        self.assertEqual(self.message(self.folder / name)[0], "no wheel that can be read: File is not a zip file")
        whole = self.wheel(name, **{"a.dist-info__METADATA": METADATA}).read_bytes()
        (self.folder / name).write_bytes(whole.replace(b"Name: app", b"Name: bpp", 1))
        self.assertTrue(self.message(self.folder / name)[0].startswith("no wheel that can be read: Bad CRC-32"))
        name = "app-1.0.tar.gz"
        self.assertEqual(self.message(self.archive(name, {"x": ""})), ("there is no file PKG-INFO", name, None))
        (self.folder / name).write_bytes(b"no gzip file")
        self.assertTrue(self.message(self.folder / name)[0].startswith("no source archive that can be read: "))
        whole = self.archive(name, {"a/PKG-INFO": METADATA}).read_bytes()
        (self.folder / name).write_bytes(whole[: len(whole) // 2])
        self.assertTrue(self.message(self.folder / name)[0].startswith("no source archive that can be read: "))

    def test_broken_archives(self):
        """They are read, or refused by their names, whatever the standard library raises."""
        wheel = self.wheel("app-1.0-py3-none-any.whl", **{"a.dist-info__METADATA": METADATA})
        archive = self.archive("app-1.0.tar.gz", {"a/PKG-INFO": METADATA})
        draw, refused = random.Random(3), 0
        for path in (wheel, archive):
            whole = path.read_bytes()
            for _ in range(ROUNDS):
                data, at = bytearray(whole), draw.randrange(len(whole))
                data[at : at + draw.randrange(3)] = draw.choices(range(256), k=draw.randrange(1, 3))
                path.write_bytes(data)
                refused += self.is_refused(path)
        self.assertGreater(refused, ROUNDS // 4)

    def is_refused(self, path):
        try:
            read(path)
        except InvalidInput as error:
            self.assertTrue(str(error).startswith(str(path)), error)
            return True
        return False

    def test_faults_of_folders(self):
        said = "a folder without a pyproject.toml, and none of an installed distribution"
        self.assertEqual(self.message(self.folder), (said, ".", None))
        self.assertRaises(FileNotFoundError, read, self.folder / "absent.whl")
        self.assertRaises(FileNotFoundError, read, self.folder / "absent.tar.gz")
        (self.folder / "a.dist-info").mkdir()
        self.assertRaises(FileNotFoundError, read, self.folder / "a.dist-info")


class Wheelhouses(OfMetadata):
    def test_names(self):
        names = {
            "foo-1.0-py3-none-any.whl": ("foo", "1.0"),
            "foo_bar-1.0-1abc-cp311-cp311-manylinux_2_17_x86_64.manylinux2014_x86_64.whl": ("foo_bar", "1.0"),
            "foo-1.0+cpu-py2.py3-none-any.whl": ("foo", "1.0+cpu"),
            "foo-1.0_1-py3-none-any.whl": ("foo", "1.0-1"),
            "foo-1.0.tar.gz": ("foo", "1.0"),
            "foo-bar-1.1.tar.gz": ("foo-bar", "1.1"),
            "Foo.Bar-2.0rc1.zip": ("Foo.Bar", "2.0rc1"),
            "a-b-c-d-e-f-g-h-i-j-1.tgz": ("a-b-c-d-e-f-g-h-i-j", "1"),
            "foo-1.0-py3-none.whl": "no wheel and no source archive",
            "foo-1.0-x-py3-none-any.whl": "no wheel and no source archive",
            "foo-x-py3-none-any.whl": "its name says no name and version",
            "-1.0-py3-none-any.whl": "no wheel and no source archive",
            "foo.tar.gz": "its name says no name and version",
            "foo-1.0-1.tar.gz": "its name can be read in more than one way",
            "notes.txt": "no wheel and no source archive",
            "foo-1.0-py3-none-any.whl.metadata": "no wheel and no source archive",
        }
        for name in names:
            (self.folder / name).touch()
        left_out = []
        found = wheelhouse(self.folder, left_out)
        self.assertEqual(set(found), {it for it in names.values() if isinstance(it, tuple)})
        self.assertEqual(len(found), len(set(found)))
        wanted = {name: it for name, it in names.items() if isinstance(it, str)}
        self.assertEqual({it.what: it.why for it in left_out}, wanted)
        self.assertEqual({str(it.place) for it in left_out}, {str(self.folder)})
        self.assertEqual(read_candidates(self.folder), found)
        self.assertEqual(wheelhouse(self.folder), found)

    def offered(self):
        """A folder of wheels for several interpreters."""
        folder = self.folder / "wheels"
        folder.mkdir()
        for name, python in (
            ("foo-1-py3-none-any.whl", ">=3.8"), ("foo-2-py2.py3-none-any.whl", "<3.8"), ("foo-3-cp311-abi3-Linux_x86_64.whl", ""),
            ("foo-4-cp311-abi3-win32.manylinux_x_y.whl", ">=x"),
        ):  # fmt: skip
            data = "Name: foo\n" + (f"Requires-Python: {python}\n" if python else "")
            self.wheel(f"wheels/{name}", **{f"{name[:5]}.dist-info__METADATA": data})
        self.archive("wheels/foo-5.tar.gz", {"foo-5/x": "", "foo-5/PKG-INFO": "Name: foo\nRequires-Python: !=3.11.*,>3\n"})
        self.archive("wheels/foo-6.tar.bz2", {"foo-6/PKG-INFO": "Name: foo\nRequires-Python: >4\n"}, "w:bz2")
        return folder

    def test_interpreters(self):
        folder = self.offered()
        versions = lambda **named: "".join(version for _, version in wheelhouse(folder, **named))
        self.assertEqual(versions(), "123456")
        self.assertEqual([versions(python=it) for it in ("3.11.7", "3.7", "3.14.0rc1")], ["1346", "23456", "13456"])
        tags = ["cp311-abi3-linux_x86_64", "py3-none-any"]
        self.assertEqual([versions(tags=tags), versions(tags=["CP311-abi3-win32"]), versions(tags=[])], ["12356", "456", "56"])
        left_out = []
        self.assertEqual(wheelhouse(folder, left_out, python="3.11.7", tags=iter(tags)), [("foo", it) for it in "136"])
        self.assertEqual(read_candidates(folder, python="3.11.7", tags=tags), [("foo", it) for it in "136"])
        self.assertEqual([(it.what, it.why) for it in left_out], [
            ("foo-2-py2.py3-none-any.whl", "Python 3.11.7 is not in <3.8, which it asks for"),
            ("foo-4-cp311-abi3-win32.manylinux_x_y.whl", "a wheel for other interpreters, by its tags"),
            ("foo-5.tar.gz", "Python 3.11.7 is not in !=3.11.*,>3, which it asks for"),
        ])  # fmt: skip

    def test_faults_of_files(self):
        """A file whose metadata can't be read is a candidate, and that is told."""
        self.write(x="")
        self.wheel("foo-1-py3-none-any.whl")
        (self.folder / "foo-2-py3-none-any.whl").touch()
        (self.folder / "foo-3-py3-none-any.whl").mkdir()
        self.archive("foo-4.tar.gz", {"foo-4/setup.py": ""})
        (self.folder / "foo-5.tar.gz").write_bytes(b"\x1f\x8b\x00")
        left_out = []
        self.assertEqual(len(wheelhouse(self.folder, left_out, python="3.8")), 5)
        told = {it.place.path[len(str(self.folder)) + 1 :][:5]: it.why for it in left_out if it.what == "Requires-Python"}
        self.assertEqual(list(told), ["foo-1", "foo-2", "foo-3", "foo-4", "foo-5"])
        self.assertEqual((told["foo-1"], told["foo-4"]), ("there is no file METADATA", "there is no file PKG-INFO"))
        self.assertTrue(told["foo-2"].startswith("no wheel that can be read: "), told)
        self.assertEqual(told["foo-3"], "Is a directory")

    def test_command_line(self):
        path, folder = self.write(a="foo\n"), self.offered()
        (folder / "x.txt").touch()
        left_out = f"fowlyore: {folder}: left out: x.txt (no wheel and no source archive)\n"
        of_python = "fowlyore: {}: left out: foo-{} (Python 3.7 is not in {}, which it asks for)\n".format
        tags = "fowlyore: the tags of wheels are not looked at: the environment is not the running interpreter's\n"
        told = tags + of_python(folder, "1-py3-none-any.whl", ">=3.8") + left_out
        words = ["check", path, "--wheelhouse", folder, "--python-version", "3.7"]
        self.assertEqual(run(*words), (0, "foo 6\n", told))
        (self.folder / "more").mkdir()
        (self.folder / "more" / "foo-7.zip").touch()
        self.assertEqual(run(*words, "--wheelhouse", self.folder / "more"), (0, "foo 7\n", told))
        environments = self.folder / "environments.json"
        environments.write_text(json.dumps([ENVIRONMENT]))
        told = "fowlyore: Requires-Python and the tags of wheels are not looked at: there are several environments\n"
        words = ["matrix", path, environments, "--wheelhouse", folder, "--strict"]
        self.assertEqual(run(*words), (0, "env 1\nfoo 6\n", told + left_out))
        self.assertEqual(run("check", path, "--wheelhouse", folder, "--candidates", path)[:2], (2, ""))
        absent = self.folder / "absent"
        status, out, err = run("check", path, "--wheelhouse", absent, "--python-version", "3.8")
        self.assertEqual((status, out, err), (3, "", f"fowlyore: {absent}: No such file or directory\n"))

    def test_tags_of_the_running_interpreter(self):
        """As the package packaging has them, where it is there."""
        path, folder = self.write(a="foo\n"), self.offered()
        words = ["check", path, "--wheelhouse", folder]
        module = types.SimpleNamespace(sys_tags=lambda: iter(["cp311-abi3-linux_x86_64"]))
        with mock.patch.dict(sys.modules, {"packaging": module, "packaging.tags": module}):
            status, out, err = run(*words)
        self.assertEqual((status, out), (0, "foo 6\n"))
        self.assertIn("foo-1-py3-none-any.whl (a wheel for other interpreters, by its tags)\n", err)
        self.assertNotIn("foo-3", err)
        with mock.patch.dict(sys.modules, {"packaging": None, "packaging.tags": None}):
            status, out, err = run(*words)
        said = "fowlyore: the tags of wheels are not looked at: that takes the package packaging (pip install packaging)\n"
        self.assertEqual((status, out, err[: len(said)]), (0, "foo 6\n", said))


class Paths(OfMetadata):
    def test_texts_that_print_as_others(self):
        """What counts of a member of an `Enum` that is a text is that text, also in what is told."""
        path, page = self.write(a="--pre\nfoo\n"), self.folder / "foo.json"
        page.write_text('{"name": "foo", "files": [{"filename": "foo-1.zip", "requires-python": "<3"}]}')
        given = {"list": str(path), "page": str(page), "folder": str(self.folder), "python": "3.9"}
        texts, told = enum.Enum("texts", given, type=str), []
        self.assertEqual(str(read(texts.list).left_out[0]), f"{path}: line 1: left out: --pre (an option of pip)")
        self.assertEqual(read_candidates(texts.page, told, python=texts.python), [])
        self.assertEqual(wheelhouse(texts.folder, told), [])
        why = "Python 3.9 is not in <3, which it asks for"
        self.assertEqual(str(told[0]), f"{page}: files[0]: left out: foo-1.zip ({why})")
        self.assertEqual(str(told[1]), f"{self.folder}: left out: a.txt (no wheel and no source archive)")

    def test_of_bytes(self):
        """What has a path of bytes is read as what has one of text."""
        class Path:
            def __init__(self, path):
                self.path = path

            def __fspath__(self):
                return os.fsencode(self.path)

        listed, page = self.write(a="foo\n"), self.folder / "foo.json"
        page.write_text('{"name": "foo", "files": [{"filename": "foo-1.zip"}]}')
        (self.folder / "foo-2.zip").touch()
        for kind in (Path, os.fsencode):
            self.assertEqual(read(kind(listed)), read(listed))
            self.assertEqual(read_candidates(kind(page)), [("foo", "1")])
            self.assertEqual((read_candidates(kind(self.folder)), wheelhouse(kind(self.folder))), ([("foo", "2")],) * 2)
            self.assertEqual(read_candidates(kind(listed)), listed)


class Pages(OfMetadata):
    def page(self, page):
        path = self.folder / "page.json"
        path.write_bytes(page if isinstance(page, bytes) else json.dumps(page).encode())
        return path

    def test_files(self):
        files = [
            {"filename": "foo_bar-1.0-py3-none-any.whl", "yanked": False},
            {"filename": "foo-bar-1.0.0.tar.gz"},
            {"filename": "foo-bar-1.1-1.tar.gz"},
            {"filename": "foo_bar-2.0.tar.gz", "yanked": "broken"},
            {"filename": "other-3.0-py3-none-any.whl"},
            {"filename": "foo_bar-x.tar.gz"},
            {"filename": "foo_bar-1.0.exe"},
        ]
        page = {"meta": {"api-version": "1.1"}, "name": "Foo.Bar", "files": files, "versions": ["1.1.post1", "2.0", "nope"]}
        path, left_out = self.page(page), []
        no_version = ("nope", "no version", "versions[2]")
        self.assertEqual(read_candidates(path, left_out), [("Foo.Bar", "1.0"), ("Foo.Bar", "1.1.post1")])
        self.assertEqual(
            [(it.what, it.why, it.place.entry) for it in left_out],
            [
                no_version,
                ("foo_bar-2.0.tar.gz", "yanked", "files[3]"),
                ("other-3.0-py3-none-any.whl", "a file of another package", "files[4]"),
                ("foo_bar-x.tar.gz", "its name says no version of the package", "files[5]"),
                ("foo_bar-1.0.exe", "no wheel and no source archive", "files[6]"),
                ("2.0", "no file is left of it", "versions"),
            ],
        )
        self.assertEqual(
            read_candidates(self.page([page, {"name": "a", "versions": ["1"]}]))[1:], [("Foo.Bar", "1.1.post1"), ("a", "1")]
        )
        self.assertEqual(read_candidates(self.page([])), [])
        del page["files"]
        self.assertEqual(read_candidates(self.page(page)), [("Foo.Bar", "1.1.post1"), ("Foo.Bar", "2.0")])

    def test_interpreters(self):
        of = lambda name, python: {"filename": name, "requires-python": python}
        files = [of("foo-1-py3-none-any.whl", "<3"), of("foo-2.tar.gz", None), of("foo-3-cp38-cp38-x.whl", ">=3.8"), of("foo-4.zip", ">x")]
        path, left_out = self.page({"name": "foo", "files": files}), []
        versions = lambda **named: "".join(version for _, version in read_candidates(path, left_out, **named))
        self.assertEqual([versions(), versions(python="3.8"), versions(tags=["py3-none-any"])], ["1234", "234", "124"])
        self.assertEqual([str(it).partition(": files")[2] for it in left_out], [
            "[0]: left out: foo-1-py3-none-any.whl (Python 3.8 is not in <3, which it asks for)",
            "[2]: left out: foo-3-cp38-cp38-x.whl (a wheel for other interpreters, by its tags)",
        ])  # fmt: skip

    def test_wheels_of_many_tags(self):
        """A name may have so many texts in each part that there are more tags of them than could be looked at."""
        many = [".".join(f"{kind}{it}" for it in range(5000)) for kind in "abc"]
        files = [f"foo-1-{'-'.join(many)}.whl", f"foo-2-{many[0]}.py3-{many[1]}.none-{many[2]}.any.whl"]
        path = self.page({"name": "foo", "files": [{"filename": it} for it in files]})
        self.assertEqual(read_candidates(path, tags=["py3-none-any", "a-b", "a0-b0"]), [("foo", "2")])
        self.assertEqual(read_candidates(path, tags=["a7-b0-c4999"]), [("foo", "1"), ("foo", "2")])
        for tags in ("py3-none-any", enum.Enum("texts", {"tag": "py3-none-any"}, type=str), Tag("py3", "none", "any")):
            self.assertEqual(read_candidates(path, tags=tags), [("foo", "2")])

    def test_other_files(self):
        """They are lists, which the functions on lists read by their paths."""
        path = self.write(a="foo 1\n")
        self.assertEqual([read_candidates(it) for it in (path, str(path))], [path, path])

    def test_command_line(self):
        path = self.page({"name": "foo", "versions": ["1.0", "x"]})
        said = "fowlyore: the tags of wheels are not looked at: the environment is not the running interpreter's\n"
        said += f"fowlyore: {path}: versions[1]: left out: x (no version)\n"
        words = ["check", self.write(a="foo\n"), "--candidates", path, "--python-version", "3.8"]
        self.assertEqual(run(*words), (0, "foo 1.0\n", said))

    def test_faults(self):
        for page, said in (
            (b"<html>", "no JSON: Expecting value: line 1 column 1 (char 0)"),
            (1, "an object is wanted, the page of a package in an index"),
            ([{"name": "a", "versions": []}, 1], "[1]: an object is wanted, the page of a package in an index"),
            ([{"name": "a", "files": [{}]}], "[0].files[0]: an object with a filename is wanted"),
            ({"files": []}, "name: it is missing, or of another form"),
            ({"name": "a-", "files": []}, "name: 'a-' is no name"),
            ({"name": "a"}, "there is no member files, and no member versions"),
            ({"name": "a", "files": {}}, "files: it is missing, or of another form"),
            ({"name": "a", "files": [1]}, "files[0]: an object with a filename is wanted"),
            ({"name": "a", "files": [{"filename": 1}]}, "files[0]: an object with a filename is wanted"),
            ({"name": "a", "versions": ["1", 1]}, "versions[1]: a text is wanted"),
            ({"meta": {"api-version": "2.0"}, "name": "a", "files": []}, "meta.api-version: '2.0' is not 1.0"),
        ):
            error = self.refused(read_candidates, self.page(page))
            self.assertEqual((self.said(error), error.input), (said, "candidates"))
            self.assertEqual(error.path, str(self.folder / "page.json"))
        self.refused(read_candidates, self.page(b"[" * 100_000))
        self.refused(read_candidates, self.page(b'{"name": "\xff"}'))
        status, out, err = run("check", self.write(a="foo\n"), "--candidates", self.page(b"<html>"))
        self.assertEqual((status, out), (2, ""))
        self.assertTrue(err.startswith(f"fowlyore: {self.folder / 'page.json'}: no JSON: "), err)


if __name__ == "__main__":
    unittest.main()
