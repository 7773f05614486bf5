"""Tables for a terminal, pages of HTML, and how far long work is."""

import html.parser
import io
import pathlib
import re
import tempfile
import textwrap
import threading
import time
import unittest
from unittest import mock

from fowlyore import Row, check, progress
from fowlyore.__main__ import main
from fowlyore.explanations import explain
from fowlyore.progress import Progress
from fowlyore.tables import Grid, _wrapped, check_page, check_table, matrix_page, matrix_table
from tests.test_command import EXAMPLES, FIRST, OF_FIRST, run
from tests.test_documents import PAGE
from tests.test_files import ENVIRONMENT, WINDOWS, InFolder

MATRIX = EXAMPLES / "matrix"
WORDS = ["matrix", MATRIX / "requirements.txt", MATRIX / "environments.json", "--candidates", MATRIX / "candidates.txt"]
ROWS = [
    [Row("a", ("x",), "1"), Row("b", (), "none")],
    [Row("a", ("x",), "1"), Row("b", ("y",), "2.0")],
    [Row("a", ("x",), "1.5"), Row("b", ("y", "z"), "none"), Row("c", (), "direct")],
]
GRID = Grid.of(ROWS, [{"os_name": "<&>"}, {"os_name": "\x1b[2J"}, {"os_name": "c"}])
COLOUR = re.compile(r"\x1b\[\d+m")
# For so many seconds at most it is waited for what another thread does.
MOST = 300


class Page(html.parser.HTMLParser):
    """The elements of a page, each with its attributes, and its texts."""

    def __init__(self, text):
        super().__init__()
        self.elements, self.texts = [], []
        self.open = []
        self.feed(text)
        self.close()

    def handle_starttag(self, tag, attributes):
        self.elements.append((tag, dict(attributes)))
        if tag not in ("meta", "br"):
            self.open.append(tag)

    def handle_endtag(self, tag):
        assert self.open.pop() == tag, tag

    def handle_data(self, data):
        self.texts.append(data)

    def cells(self, name="td"):
        return [attributes.get("class", "") for tag, attributes in self.elements if tag == name]


class Matrices(unittest.TestCase):
    def test_table(self):
        self.assertEqual(list(matrix_table(GRID)), [
            "package  1     2         3", "a[x]     1     1         1.5*", "b        none  [y] 2.0*  [y,z] none*",
            "c        -     -         direct*", "", "1: os_name <&>", "2: os_name ?[2J", "3: os_name c",
            "* is not what most environments have",
        ])  # fmt: skip

    def test_documented_table(self):
        versions = {"async-timeout": ("5.0.1", None, None), "colorama": (None, None, "0.4.6"), "numpy": ("1.24.4", "2.2.6", "2.2.6")}
        rows = [[Row(name, (), those[at]) for name, those in versions.items() if those[at]] for at in range(3)]
        environments = [
            {**ENVIRONMENT, "python_full_version": full, "python_version": full[:-3], "sys_platform": platform}
            for full, platform in (("3.8.20", "linux"), ("3.13.9", "linux"), ("3.13.9", "win32"))
        ]
        table = "\n".join(matrix_table(Grid.of(rows, environments)))
        self.assertTrue(table in PAGE.read_text(encoding="utf-8"), table)

    def test_width(self):
        for width in (1, 30, 80, 10_000):
            lines = list(matrix_table(GRID, width))
            self.assertEqual(sum(it.startswith("package") for it in lines), {1: 3, 30: 2, 80: 1, 10_000: 1}[width])
            self.assertTrue(width < 30 or max(map(len, lines[:-1])) <= width, lines)

    def test_colours(self):
        plain, coloured = list(matrix_table(GRID)), list(matrix_table(GRID, None, True))
        self.assertEqual([COLOUR.sub("", it) for it in coloured], plain)
        self.assertEqual([len(COLOUR.findall(it)) for it in coloured], [2, 2, 6, 2, 0, 0, 0, 0, 0])
        self.assertTrue(all("\x1b" not in it for it in plain))

    def test_nothing(self):
        for answers, environments in (([], []), ([[]], [{"os_name": "a"}]), ([[], []], [{}, {}])):
            grid = Grid.of(answers, environments)
            self.assertNotIn("None", "".join([*matrix_table(grid, 80, True), matrix_page(grid, "t")]))

    def test_environments_told_apart(self):
        environments = [{**ENVIRONMENT, "platform_version": str(it)} for it in range(2)] + [WINDOWS, WINDOWS]
        told = Grid.of([[]] * 4, environments).columns
        self.assertEqual([len({*told}), told[2], told[3]], [3, *["sys_platform win32, platform_version #1 SMP"] * 2])

    def test_many_environments_and_values(self):
        """Each value is looked at once, however many tell the environments apart."""
        many = 700
        names = [f"name{it:03}" for it in range(many)]
        environments = [{name: int(at == number) for number, name in enumerate(names)} for at in range(many)]
        (first, *_, last) = Grid.of([[]] * many, environments).columns
        values = ["name000 1", *(f"{name} 0" for name in names[1:-1])]
        self.assertEqual((first, last), (", ".join(values), ", ".join(f"{name} 0" for name in names[:-1])))

    def test_page(self):
        page = matrix_page(GRID, "a < b")
        found = Page(page)
        self.assertEqual((found.open, found.texts.count("a < b")), ([], 2))
        self.assertEqual(found.cells(), ["", "", "differs", "none", "differs", "differs none", "absent", "absent", "differs"])
        self.assertEqual({it for it, _ in found.elements} & {"script", "link", "img", "iframe"}, set())
        self.assertNotRegex(page, r"https?:|url\(|@import|src=|\son\w+=")
        self.assertIn("os_name <&>", found.texts)

    def test_without_environments(self):
        """There is no line then, as in the text for programs."""
        with tempfile.TemporaryDirectory() as folder:
            path = pathlib.Path(folder, "none.json")
            path.write_text("[]")
            words = [WORDS[0], WORDS[1], str(path), *WORDS[3:]]
            self.assertEqual([run(*words, "--format", it) for it in ("text", "table")], [(0, "", "")] * 2)

    def test_command_line(self):
        status, out, err = run(*WORDS)
        rows = [it.split("\n")[1:-1] for it in out.split("env ")[1:]]
        table = run(*WORDS, "--format", "table")
        self.assertEqual((table[0], table[2]), (status, err))
        names = {re.split(r"\[| ", it)[0] for those in rows for it in those}
        shown = table[1].split("\n\n")[0].split("\n")
        self.assertEqual([re.split(r"\[| ", it)[0] for it in shown[1:]], sorted(names))
        for line in shown[1:]:
            name = re.split(r"\[| ", line)[0]
            cells = [it.strip("*") for it in re.split(r" {2,}", line)[1:]]
            outcomes = [next((it.split(" ")[1] for it in those if re.match(rf"{name}[\[ ]", it)), "-") for those in rows]
            self.assertEqual([it.split(" ")[-1] for it in cells], outcomes, line)
        status, page, err = run(*WORDS, "--format", "html", "--strict")
        self.assertEqual((status, err, len(Page(page).cells())), (4, "", len(names) * len(rows)))


class Checks(InFolder):
    def test_formats(self):
        words = ["check", FIRST / "requirements.txt", *OF_FIRST]
        expected = [it.split(" ") for it in (FIRST / "expected.txt").read_text().splitlines()]
        status, out, err = run(*words, "--format", "table", "--explain")
        lines = [it for it in out.splitlines()[1:] if not it.startswith("    ")]
        self.assertEqual(([it.split() for it in lines], err), (expected, ""))
        self.assertIn("\n    line 5 (numpy==1.26.4) accepts no candidate; the greatest is 1.26.3\n", out)
        self.assertEqual(run(*words, "--format", "table")[1].splitlines(), [out.splitlines()[0], *lines])
        page = Page(run(*words, "--format", "html", "--explain")[1])
        self.assertIn("line 5 (numpy==1.26.4) accepts no candidate; the greatest is 1.26.3", page.texts)
        self.assertEqual(page.cells().count("none"), sum(it == "none" for _, it in expected))
        self.assertEqual(run(*words, "--format", "x")[0], 2)

    def test_sentences(self):
        requirements = ["foo<1", "foo>=2 ; python_version > '3' or os_name == '<b>'"]
        inputs = (requirements, ENVIRONMENT, {"foo": ["1.5", "0.5"]})
        rows, why = check(*inputs), explain(*inputs)
        page = check_page(rows, why, "t")
        self.assertNotIn("<b>", page)
        self.assertEqual((Page(page).open, page.count("<li>")), ([], len(why[0].sentences)))
        lines = list(check_table(rows, why, 40, True))
        self.assertEqual(" ".join(" ".join(lines[2:]).split()), " ".join(why[0].sentences))
        self.assertLessEqual(max(len(it) for it in lines[2:]), 60)

    def test_long_words(self):
        """They are broken as the module for texts breaks them, and at once."""
        how = {"initial_indent": "    ", "subsequent_indent": "      ", "break_on_hyphens": False}
        for text in ("a" * 300 + " bc", "a b " + "c" * 100 + " d" * 40 + "e" * 25, "f " + "g" * 24, "h" * 16 + " " + "i" * 17, "j-" * 50):
            for width in (20, 30, 79):
                self.assertEqual(_wrapped(text, width), textwrap.wrap(text, width, **how), (text, width))
        self.assertEqual(len(_wrapped("a" * 12_000_002, 30)), 500_000)

    def test_terminal(self):
        """Colours and widths are a terminal's alone."""
        path = self.write(a="foo>=2\n")
        for variables, has_colour in (({"TERM": "xterm"}, True), ({"TERM": "xterm", "NO_COLOR": "1"}, False), ({"TERM": "dumb"}, False)):
            terminal = Terminal()
            with mock.patch.dict("os.environ", {"NO_COLOR": "", **variables}), mock.patch("sys.stdout", terminal):
                main(["check", str(path), "--candidates", str(self.write(b="foo 1\n")), "--format", "table"])
            self.assertEqual("\x1b" in terminal.getvalue(), has_colour, variables)


class Terminal(io.StringIO):
    def isatty(self):
        return True


class LongWork(unittest.TestCase):
    def shown(self, work, is_wanted=True, stream=Terminal):
        """What a stream is written while some work is done, which is given the progress and the stream."""
        terminal = stream()
        with mock.patch.dict("os.environ", {"TERM": "xterm"}), mock.patch("sys.stderr", terminal), mock.patch.object(
            Progress, "is_wanted", is_wanted
        ), mock.patch.multiple(progress, FIRST=0.01, EVERY=0.01):
            with Progress("reading", 7) as found:
                work(found, terminal)
        return terminal.getvalue()

    def await_text(self, terminal, text):
        """Waits until another thread has shown a text."""
        last = time.monotonic() + MOST
        while text not in terminal.getvalue() and time.monotonic() < last:
            time.sleep(0.01)

    def test_terminal(self):
        def work(found, terminal):
            self.await_text(terminal, " 0 of 7, ")
            found.step()
            self.await_text(terminal, " 1 of 7, ")

        lines = "".join(rf"(\r\x1b\[Kfowlyore: reading: {it} of 7, \d+ s)+" for it in range(2))
        self.assertRegex(self.shown(work), rf"\A{lines}\r\x1b\[K\Z")

    def test_what_is_no_character(self):
        """A path may have in it what a terminal takes for more than characters."""
        self.assertEqual(Progress("reading \x1b[2J\u202e").line(1), r"reading \u{1b}[2J\u{202e}: 1 s")

    def test_silence(self):
        def work(*_):
            time.sleep(0.1)

        self.assertEqual(self.shown(work, is_wanted=False), "")
        self.assertEqual(self.shown(work, stream=io.StringIO), "")

    def test_a_terminal_that_is_gone(self):
        asked = threading.Event()

        class Gone(Terminal):
            def write(self, text):
                asked.set()
                raise OSError("gone")

        with mock.patch("threading.excepthook") as failed:
            self.assertEqual(self.shown(lambda *_: self.assertTrue(asked.wait(MOST)), stream=Gone), "")
        self.assertFalse(failed.called)

    def test_without_more_threads(self):
        """Nothing is shown then, and the work goes on."""
        with mock.patch("threading.Thread.start", side_effect=RuntimeError("can't start new thread")):
            self.assertEqual(self.shown(lambda found, _: found.step()), "")

    def test_faults_go_on(self):
        with self.assertRaises(KeyError), Progress("x"):
            raise KeyError


if __name__ == "__main__":
    unittest.main()
