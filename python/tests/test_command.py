"""The command line."""

import io
import json
import os
import pathlib
import resource
import subprocess
import sys
import tempfile
import unittest
from contextlib import redirect_stderr, redirect_stdout
from unittest import mock

from fowlyore import InvalidInput, __version__, normal
from fowlyore.__main__ import main, shown

EXAMPLES = pathlib.Path(__file__).resolve().parents[2] / "examples"
FIRST = EXAMPLES / "first"
OF_FIRST = ["--environment", str(FIRST / "environment.json"), "--candidates", str(FIRST / "candidates.txt")]


def run(*words):
    """Status and outputs of a command."""
    out, err = io.StringIO(), io.StringIO()
    with redirect_stdout(out), redirect_stderr(err):
        try:
            status = main([str(it) for it in words])
        except SystemExit as ended:
            status = ended.code
    return status, out.getvalue(), err.getvalue()


class Commands(unittest.TestCase):
    def test_check(self):
        expected = (FIRST / "expected.txt").read_text()
        words = ["check", FIRST / "requirements.txt", *OF_FIRST]
        self.assertEqual(run(*words), (0, expected, ""))
        self.assertEqual(run(*words, "--strict"), (4, expected, ""))
        status, out, err = run(*words, "--explain")
        why = "    line 5 (numpy==1.26.4) accepts no candidate; the greatest is 1.26.3\n"
        self.assertEqual((status, out, err), (0, expected.replace("numpy none\n", "numpy none\n" + why), ""))

    def test_check_of_what_is_installed(self):
        with tempfile.TemporaryDirectory() as folder:
            path = pathlib.Path(folder, "requirements.txt")
            path.write_text("no-such-package ; python_version < '3.9' and extra == 'x'\n")
            self.assertEqual(run("check", path, "--strict")[0:2], (0, ""))
            words = ["check", path, "--strict", "--python-version", "3.8", "--extra", "X"]
            self.assertEqual(run(*words)[0:2], (4, "no-such-package none\n"))

    def test_the_others(self):
        lock = EXAMPLES / "lock"
        self.assertEqual(run("same", lock / "before.txt", lock / "rewritten.txt"), (0, "yes\n", ""))
        expected = (lock / "expected_same.txt").read_text()
        self.assertEqual(run("same", lock / "before.txt", lock / "after.txt"), (1, expected, ""))
        self.assertEqual(run("covers", lock / "before.txt", lock / "wanted.txt"), (0, "yes\n", ""))
        expected = (lock / "expected_covers.txt").read_text()
        self.assertEqual(run("covers", lock / "after.txt", lock / "wanted.txt"), (1, expected, ""))
        expected = (EXAMPLES / "apart" / "expected_conflicts.txt").read_text()
        self.assertEqual(run("conflicts", EXAMPLES / "apart" / "requirements.txt"), (0, expected, ""))
        status, out, err = run("normal", FIRST.parent / "spelling" / "requirements.txt")
        self.assertEqual((status, out, err), (0, "foo-bar>=1.16\nfoo-bar==1.19\n", ""))
        words = ["matrix", FIRST / "requirements.txt", FIRST / "environments.json", *OF_FIRST[2:]]
        self.assertEqual(run(*words), (0, (FIRST / "expected_matrix.txt").read_text(), ""))
        self.assertEqual(run(*words, "--strict")[0], 4)

    def test_refused(self):
        with tempfile.TemporaryDirectory() as folder:
            path = pathlib.Path(folder, "requirements.txt")
            path.write_text("foo\n-r base.txt\n")
            status, out, err = run("check", path)
            self.assertEqual((status, out), (2, ""))
            self.assertTrue(err.startswith(f"fowlyore: {path}: line 2"), err)
            self.assertIn("^", err)
            environment = pathlib.Path(folder, "environment.json")
            for text in ("", "[]", "{}", '{"python_full_version": 3}', "[" * 100_000):
                environment.write_text(text)
                status, out, err = run("check", FIRST / "requirements.txt", "--environment", environment)
                self.assertEqual((status, out), (2, ""), text)
                self.assertTrue(err.startswith(f"fowlyore: {environment}: "), err)

    def test_control_characters(self):
        """They are shown by their numbers, as `reqs` shows them, and the marks below them stand where they do then."""
        with tempfile.TemporaryDirectory() as folder:
            path = pathlib.Path(folder, "a\x1b.txt")
            path.write_text("foo ; os_name == '\x1b[2J\u202e' and xyz == '1'\n", encoding="utf-8")
            status, out, err = run("normal", path)
            with self.assertRaises(InvalidInput) as caught:
                normal(path)
            error = caught.exception
            blanks, marks = len(shown(error.text[: error.start])), len(shown(error.text[error.start : error.end]))
            line = r"foo ; os_name == '\u{1b}[2J\u{202e}' and xyz == '1'"
            self.assertEqual((status, out, err.split("\n")[-3:]), (2, "", [line, " " * blanks + "^" * marks, ""]), err)
            self.assertTrue(err.startswith(rf"fowlyore: {folder}/a\u{{1b}}.txt: line 1, byte "), err)
            path.write_text("--\x9b\n", encoding="utf-8")
            status, out, err = run("normal", path)
            self.assertEqual((status, out, err.split("\n")[2:]), (2, "", [r"--\u{9b}", "^" * 8, ""]), err)

    def test_control_characters_of_explanations(self):
        """As text they are shown by their numbers too; a page has what the line has, with escapes of its own."""
        with tempfile.TemporaryDirectory() as folder:
            path, candidates = pathlib.Path(folder, "requirements.txt"), pathlib.Path(folder, "candidates.txt")
            path.write_text("foo!=1\t; os_name != '<&\x1b[2J\u202e'\n", encoding="utf-8")
            candidates.write_text("foo 1\n")
            words = ["check", path, *OF_FIRST[:2], "--candidates", candidates, "--explain"]
            line = r"foo!=1\u{9}; os_name != '<&\u{1b}[2J\u{202e}'"
            said = f"foo none\n    line 1 ({line}) accepts no candidate; the greatest is 1\n"
            self.assertEqual(run(*words), (0, said, ""))
            status, out, err = run(*words, "--format", "html")
            self.assertEqual((status, err), (0, ""))
            self.assertIn("(foo!=1\t; os_name != &#x27;&lt;&amp;\x1b[2J\u202e&#x27;) accepts no candidate", out)

    def test_control_characters_of_words(self):
        """They are shown by their numbers where the command line is refused too."""
        for words, said in ((["a", "b\x1b[2J"], r"b\u{1b}[2J"), (["a", "--\x9b"], r"--\u{9b}"), (["a", "--ex\u202e"], r"--ex\u{202e}")):
            status, out, err = run("check", *words)
            self.assertEqual((status, out, err.split("\n")[-2]), (2, "", f"fowlyore: error: unrecognized arguments: {said}"))

    def test_line_feeds_of_names(self):
        """Names that others choose make no lines of their own: a line feed in one is shown by its number."""
        with tempfile.TemporaryDirectory() as room:
            folder, forged = pathlib.Path(room, "a\nfowlyore: b"), "x\nfowlyore: all is well"
            shown_folder, shown_forged = str(folder).replace("\n", r"\u{a}"), forged.replace("\n", r"\u{a}")
            folder.mkdir()
            path, page, house = folder / "r.txt", folder / "foo.json", folder / "house"
            house.mkdir()
            (house / f"{forged}.whl").touch()
            page.write_text(json.dumps({"meta": {"api-version": "1.0"}, "name": "foo", "files": [{"filename": f"{forged}.whl"}]}))
            path.write_text("foo\n")
            for words in (["--candidates", page], ["--wheelhouse", house]):
                status, out, err = run("check", path, *words)
                self.assertEqual((status, out), (0, "foo none\n"))
                self.assertIn(shown_forged, err)
                self.assertNotIn("\nfowlyore: all is well", err)
            status, out, err = run("check", folder / forged)
            self.assertEqual((status, out), (3, ""))
            self.assertEqual(err, f"fowlyore: {shown_folder}/{shown_forged}: No such file or directory\n")
            path.write_text("foo=1\n")
            status, out, err = run("normal", path)
            self.assertEqual((status, err.split("\n")[0]), (2, f"fowlyore: {shown_folder}/r.txt: line 1, byte 3, length 2"))
            self.assertEqual(err.split("\n")[2:], ["foo=1", "   ^^", ""])
            path.write_text("-r absent.txt\n")
            said = f"line 1, byte 3, length 10\n{shown_folder}/absent.txt: No such file or directory\n-r absent.txt\n   {'^' * 10}\n"
            self.assertEqual(run("normal", path), (2, "", f"fowlyore: {shown_folder}/r.txt: {said}"))
            path.write_text("foo @ https://e.org/x\n")
            status, out, err = run("normal", path)
            self.assertEqual((status, out, err.count("\n")), (2, "", 1))
            self.assertTrue(err.startswith(f"fowlyore: {shown_folder}/r.txt: line 1: "), err)
        status, out, err = run("check", "a", forged)
        self.assertEqual((status, err.split("\n")[-2]), (2, f"fowlyore: error: unrecognized arguments: {shown_forged}"))

    def test_python_version(self):
        """On CPython the version of the implementation is that of the language; of another one it stays."""
        with tempfile.TemporaryDirectory() as folder:
            path = pathlib.Path(folder, "requirements.txt")
            path.write_text("a ; implementation_version == '3.8.1'\nb ; python_full_version == '3.8.1'\nc ; python_version == '3.8'\n")
            words = ["check", path, "--candidates", os.devnull, "--python-version", "3.8.1"]
            for name, wanted in (("cpython", "a none\nb none\nc none\n"), ("pypy", "b none\nc none\n")):
                with mock.patch.object(sys.implementation, "name", name):
                    self.assertEqual(run(*words), (0, wanted, ""), name)

    def test_strict_conflicts(self):
        expected = (EXAMPLES / "apart" / "expected_conflicts.txt").read_text()
        self.assertEqual(run("conflicts", EXAMPLES / "apart" / "requirements.txt", "--strict"), (4, expected, ""))
        self.assertEqual(run("conflicts", FIRST / "requirements.txt", "--strict"), (0, "", ""))

    def test_words(self):
        self.assertEqual(run("--version"), (0, f"fowlyore {__version__}\n", ""))
        for words in ((), ("chekc",), ("same", "a"), ("check", "a", "--limit", "3"), ("conflicts", "a", "--limit", "x")):
            status, out, err = run(*words)
            self.assertEqual((status, out), (2, ""), words)
            self.assertIn("usage: fowlyore", err)
        for words in ((), ("check",), ("matrix",), ("same",), ("covers",), ("conflicts",), ("normal",)):
            status, out, err = run(*words, "--help")
            self.assertEqual((status, err), (0, ""), words)

    def test_limits(self):
        """As `reqs` takes them (crates/reqs_cli, IsLimitText)."""
        path = FIRST / "requirements.txt"
        for word in ("-1", "1000001", str(2**64), str(2**64 + 1), "x", "", "1.0", "1_0", " 1", "+", "\uff11", "1" * 5000):
            status, out, err = run("conflicts", path, "--limit", word)
            self.assertEqual((status, out), (2, ""), word)
            self.assertIn("usage: fowlyore", err)
            self.assertNotIn("limit_of", err)
        for word in ("1000000", "0004096", "+5", "0" * 5000 + "5"):
            self.assertEqual(run("conflicts", path, f"--limit={word}"), (0, "", ""), word)
        status, out, err = run("conflicts", path, "--limit", "0")
        self.assertEqual((status, out, err), (2, "", f"fowlyore: {path}: more than 0 cases for colorama\n"))

    def test_a_table_past_the_limit(self):
        """Each environment is checked by itself, unless a limit is named."""
        with tempfile.TemporaryDirectory() as folder:
            path, candidates = pathlib.Path(folder, "requirements.txt"), pathlib.Path(folder, "candidates.txt")
            path.write_text("".join(f"foo>={it} ; extra == 'x{it}'\n" for it in range(13)) + "bar\n")
            candidates.write_text("foo 3\nfoo 2\n")
            words = ["matrix", path, FIRST / "environments.json", "--candidates", candidates, "--extra", "x3"]
            self.assertEqual(run(*words), (0, "env 1\nbar none\nfoo 3\nenv 2\nbar none\nfoo 3\n", ""))
            self.assertEqual(run(*words, "--limit", "4096"), (2, "", f"fowlyore: {path}: more than 4096 cases for foo\n"))

    def test_standard_input_twice(self):
        for words in (
            ("same", "-", "-"),
            ("check", "-", "--candidates", "-"),
            ("check", "-", "--environment", "-"),
            ("check", "a", "--environment", "-", "--candidates", "-"),
            ("matrix", "-", "-"),
            ("matrix", "a", "-", "--candidates", "-"),
        ):
            self.assertEqual(run(*words), (2, "", "fowlyore: standard input (-) can be one input alone\n"), words)

    def test_where_lines_end(self):
        """As for pip, on the command line, and in a list that is given as a path at a line feed alone."""
        with tempfile.TemporaryDirectory() as folder:
            path = pathlib.Path(folder, "requirements.txt")
            path.write_bytes("foo\u2028bar\x85baz\n".encode())
            self.assertEqual(run("normal", path), (0, "foo\nbar\nbaz\n", ""))
            text = "foo ; platform_version == 'a\u2028b'\nbar ; platform_version == 'a\x85b'\n"
            path.write_bytes(text.encode())
            self.assertEqual((normal(path), run("normal", path)[0]), (text.split("\n")[:-1], 2))

    def test_empty_words(self):
        """They name no file, and not the working folder, which has a project here, and candidates."""
        listed, before = FIRST / "requirements.txt", os.getcwd()
        with tempfile.TemporaryDirectory() as folder:
            pathlib.Path(folder, "pyproject.toml").write_text("[project]\nname = 'a'\ndependencies = ['foo']\n")
            pathlib.Path(folder, "foo-1.tar.gz").touch()
            os.chdir(folder)
            self.addCleanup(os.chdir, before)
            for words in (
                ("normal", ""), ("same", listed, ""), ("covers", "", listed), ("conflicts", ""), ("check", ""), ("matrix", listed, ""),
                ("check", listed, "--candidates", ""), ("check", listed, "--wheelhouse", ""), ("check", listed, "--environment", ""),
            ):  # fmt: skip
                self.assertEqual(run(*words), (3, "", "fowlyore: '': No such file or directory\n"), words)
            os.chdir(before)

    def test_no_file(self):
        status, out, err = run("normal", "/no/such/file")
        self.assertEqual((status, out, err), (3, "", "fowlyore: /no/such/file: No such file or directory\n"))


class Process(unittest.TestCase):
    """By the interpreter's -m, with what only a process has."""

    def run_module(self, *words, **named):
        named.setdefault("stdout", subprocess.PIPE)
        return subprocess.run([sys.executable, "-m", "fowlyore", *words], stderr=subprocess.PIPE, **named)

    def test_standard_input(self):
        ran = self.run_module("normal", "-", input=b"Foo_Bar >= 1\n")
        self.assertEqual((ran.returncode, ran.stdout, ran.stderr), (0, b"foo-bar>=1\n", b""))

    def test_explanations_of_what_is_read_once(self):
        with tempfile.TemporaryDirectory() as folder:
            path = pathlib.Path(folder, "candidates.txt")
            path.write_text("foo 1\nfoo 2\nbar 1\n")
            words = ["check", "/dev/stdin", "--candidates", str(path), "--explain"]
            ran = self.run_module(*words, input=b"foo!=2\nbar\nfoo!=1\n")
        said = b"bar 1\nfoo none\n    2 is refused by line 1 (foo!=2)\n    1 is refused by line 3 (foo!=1)\n"
        self.assertEqual((ran.returncode, ran.stdout, ran.stderr), (0, said, b""))

    def test_other_encodings(self):
        for it in ("ascii", "latin-1", "utf-16"):
            environment = {**os.environ, "PYTHONIOENCODING": it}
            text = "foo ; platform_version == '\u00e9\u2603'\n".encode()
            ran = self.run_module("normal", "-", input=text, env=environment)
            self.assertEqual((ran.returncode, ran.stdout, ran.stderr), (0, text, b""), it)
            ran = self.run_module("normal", "-", input=text + "\u00e9".encode(), env=environment)
            self.assertEqual((ran.returncode, ran.stdout), (2, b""), it)
            self.assertIn("\u00e9", ran.stderr.decode(), it)

    def test_paths_that_are_not_utf8(self):
        with tempfile.TemporaryDirectory() as folder:
            path = os.path.join(os.fsencode(folder), b"\xff.txt")
            with open(path, "wb") as file:
                file.write(b"foo\n")
            words = ["check", path, "--candidates", os.devnull, "--format", "html"]
            for it in ("utf-8", "utf-8:surrogateescape", "ascii"):
                ran = self.run_module(*words, env={**os.environ, "PYTHONIOENCODING": it})
                self.assertEqual((ran.returncode, ran.stderr), (0, b""), it)
                self.assertIn(rb"\udcff.txt</title>", ran.stdout, it)

    @unittest.skipUnless(os.path.exists("/dev/zero"), "there is no /dev/zero")
    def test_inputs_without_end(self):
        """They are refused as what is too long is, and no more of them is read."""
        first, environments = str(FIRST / "requirements.txt"), str(FIRST / "environments.json")
        for words in (
            ["normal", "FILE"], ["same", first, "FILE"], ["check", "FILE"], ["check", first, "--environment", "FILE"],
            ["check", first, *OF_FIRST[:2], "--candidates", "FILE"], ["matrix", first, "FILE", *OF_FIRST[2:]],
            ["matrix", first, environments, "--candidates", "FILE"],
        ):  # fmt: skip
            for file in ("/dev/zero", "-"):
                given = [file if it == "FILE" else it for it in words]
                with self.subTest(given), open("/dev/zero", "rb") as zero:
                    ran = self.run_module(*given, stdin=zero, preexec_fn=self.bound_memory)
                    self.assertEqual((ran.returncode, ran.stdout), (2, b""), ran.stderr[:1000])
                    self.assertRegex(ran.stderr, rb"\Afowlyore: (/dev/zero|-|[a-z]+): longer than 16777216 bytes\n\Z")

    @staticmethod
    def bound_memory():
        """So that what is read without end ends by that, and not by the machine's memory."""
        resource.setrlimit(resource.RLIMIT_AS, (1 << 30, 1 << 30))

    def test_an_empty_standard_input(self):
        for words in (["check", "-"], ["normal", "-"], ["conflicts", "-"]):
            ran = self.run_module(*words, stdin=subprocess.DEVNULL)
            self.assertEqual((ran.returncode, ran.stdout, ran.stderr), (0, b"", b""), words)

    @unittest.skipUnless(os.path.exists("/dev/full"), "there is no /dev/full")
    def test_a_full_disk(self):
        """Whether Python keeps what is printed, or writes it at once."""
        said = b"fowlyore: standard output: No space left on device\n"
        for unbuffered in ("", "1"):
            environment = {**os.environ, "PYTHONUNBUFFERED": unbuffered}
            for words in (["normal", "-"], ["--help"], ["--version"]):
                with open("/dev/full", "wb") as full:
                    ran = self.run_module(*words, input=b"foo\n", stdout=full, env=environment)
                self.assertEqual((ran.returncode, ran.stderr), (3, said), words)
            for words, status in ((["normal", "/no/such/file"], 3), (["normal", "-"], 2), (["chekc"], 2)):
                with open("/dev/full", "wb") as full:
                    command = [sys.executable, "-m", "fowlyore", *words]
                    ran = subprocess.run(command, input=b"foo=\n", stdout=subprocess.PIPE, stderr=full, env=environment)
                self.assertEqual((ran.returncode, ran.stdout), (status, b""), words)


@unittest.skipUnless(os.name == "posix", "streams are closed by a shell")
class Closed(unittest.TestCase):
    """Standard streams that the process is started without."""

    REQUIREMENTS, ENVIRONMENT, CANDIDATES = (str(FIRST / it) for it in ("requirements.txt", "environment.json", "candidates.txt"))
    COMMANDS = (
        ["check", REQUIREMENTS, "--environment", ENVIRONMENT, "--candidates", CANDIDATES],
        ["matrix", REQUIREMENTS, str(FIRST / "environments.json"), "--candidates", CANDIDATES],
        ["same", str(EXAMPLES / "lock" / "before.txt"), str(EXAMPLES / "lock" / "rewritten.txt")],
        ["covers", str(EXAMPLES / "lock" / "before.txt"), str(EXAMPLES / "lock" / "wanted.txt")],
        ["conflicts", str(EXAMPLES / "apart" / "requirements.txt")],
        ["normal", REQUIREMENTS.replace("first", "spelling")],
    )

    def run_without(self, streams, *words):
        closed = "".join(f" {it}>&-" for it in streams)
        command = ["sh", "-c", f'exec "$@"{closed}', "sh", sys.executable, "-m", "fowlyore", *words]
        ran = subprocess.run(command, stdin=subprocess.DEVNULL, stdout=subprocess.PIPE, stderr=subprocess.PIPE)
        return ran.returncode, ran.stdout.decode(), ran.stderr.decode()

    def test_standard_input(self):
        for words in self.COMMANDS:
            open_one = self.run_without("", *words)
            self.assertEqual((open_one[0], open_one[2]), (0, ""), words)
            self.assertEqual(self.run_without("0", *words), open_one, words)
            for at, word in enumerate(words):
                if os.path.isabs(word):
                    given = [*words[:at], "-", *words[at + 1 :]]
                    self.assertEqual(self.run_without("0", *given), (3, "", "fowlyore: standard input is closed\n"), given)

    def test_standard_output(self):
        for words in self.COMMANDS:
            self.assertEqual(self.run_without("1", *words), (3, "", "fowlyore: standard output is closed\n"), words)
            self.assertEqual(self.run_without("01", *words), (3, "", "fowlyore: standard output is closed\n"), words)
        self.assertEqual(self.run_without("1", "conflicts", self.REQUIREMENTS), (0, "", ""))
        for words in (["--help"], ["check", "--help"], ["--version"]):
            self.assertEqual(self.run_without("1", *words), (3, "", "fowlyore: standard output is closed\n"), words)

    def test_standard_error(self):
        """Nothing else is written to in its place."""
        for words, status in (
            (["normal", "/no/such/file"], 3), (["conflicts", self.CANDIDATES], 2), (["same", "-", "-"], 2),
            (["chekc"], 2), (["check"], 2),
        ):  # fmt: skip
            self.assertEqual(self.run_without("2", *words), (status, "", ""), words)

    def test_streams_of_the_other_direction(self):
        """Standard input that can only be written, and standard output that can only be read."""
        words = [sys.executable, "-m", "fowlyore", "normal"]
        with open(os.devnull, "wb") as written:
            ran = subprocess.run([*words, "-"], stdin=written, stdout=subprocess.PIPE, stderr=subprocess.PIPE)
        said = b"fowlyore: standard input: Bad file descriptor\n"
        self.assertEqual((ran.returncode, ran.stdout, ran.stderr), (3, b"", said))
        with open(os.devnull, "rb") as read:
            ran = subprocess.run([*words, self.COMMANDS[-1][-1]], stdout=read, stderr=subprocess.PIPE)
        self.assertEqual((ran.returncode, ran.stderr), (3, said.replace(b"input", b"output")))
