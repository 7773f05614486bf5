"""Requirements files of pip, held against pip's own parser."""

import io
import logging
import os
import pathlib
import random
import re
import tempfile
import unittest
import warnings
from contextlib import redirect_stderr
from unittest import mock

from fowlyore import InvalidInput, read

with warnings.catch_warnings():
    # (what pip imports may be deprecated)
    warnings.simplefilter("ignore")
    try:
        from pip._internal.exceptions import InstallationError
        from pip._internal.req.req_file import parse_requirements
    except ImportError:  # another pip, or none
        parse_requirements = None

EXAMPLES = pathlib.Path(__file__).resolve().parents[2] / "examples"
COUNT = 300
VARIABLES = {"HOST": "example.org", "EMPTY": "", "SPEC": ">=1,<2", "OPTION": "a --pre", "BLANK": " "}
NAMES = ["foo", "Foo_Bar", "a", "z9", "b[x,y]", "c[]"]
ENDS = [
    "", "", "", ">=1", "==1.0 ", " >= 1, <2", "~=1.2 ; python_version > '3'", " ; extra == 'x-y'", "==1-1", "<2 ;os_name=='-'",
    " @ https://${HOST}/x.whl", " @ https://e.org/a-b.zip#frag", "${SPEC}", "${EMPTY}", "${UNSET}", "${host}", "$SPEC", "==${",
    ">=1${BLANK}", "=1", " and", " -", " - x", "\t--pre",
]  # fmt: skip
OPTIONS = [
    "--pre", "--no-index", "--index-url https://u:p@e.org", "-i https://e.org", "--extra-index-url=x", "-f ./dir",
    "--find-links=x", "--no-binary :all:", "--only-binary=foo", "--prefer-binary", "--require-hashes", "--trusted-host h",
    "--hash=sha256:ab", "--hash sha384:ab", "--hash=md5:ab", "--hash=ab", "--global-option='a b'", "-e ./app",
    "--editable=git+https://e.org/a#egg=a", "-e'x y' -e z", "-r one.txt", "-rone.txt", "--requirement one.txt",
    "--requirement=two.txt", "-c two.txt", "--constraint=one.txt", "--constr two.txt", "-r 'three four.txt'",
    "-r one.txt -c two.txt", "-c two.txt -r one.txt", "-e x -r one.txt", "--frob", "--pre x y", "-r sub/five.txt", "-r",
    "--pre=1", '-r "one.txt', "-- x", "-x", "--no-b x", "-r ${UNSET}one.txt",
]  # fmt: skip
PATHS = [
    "./x.whl",
    "x-1.tar.gz",
    "../dir",
    "https://e.org/x.zip",
    "git+https://e.org/r#egg=x",
    "./dir[x] ; os_name == 'nt'",
    "x.zip;a=='b'",
]
COMMENTS = ["", "", "", "", " # c", "#c", "\t#", " # c \\", " # --pre", "# - x"]
LINE_ENDS = ["\n"] * 12 + ["\r\n", "\\\n", "\\\n", " \\\n", "\\\\\n", "\\ \n", "\n\n"]
OTHER_ENDS = ["\r", "\x0b", "\x0c", "\x1c", "\x85", "\u2028", "\u2029", "\x1f\n", "\n\x1f"]
ENCODINGS = ["utf-8", "utf-8-sig", "utf-16", "latin-1", "cp1252"]


def drawn_line(draw, options):
    kind = draw.random()
    if kind < 0.15:
        return draw.choice(["", " ", "# a comment", "  # -r one.txt", "#"])
    if kind < 0.3:
        return draw.choice(options) + draw.choice(COMMENTS)
    if kind < 0.36:
        return draw.choice(PATHS) + draw.choice(COMMENTS)
    more = f" {draw.choice(options)}" if draw.random() < 0.15 else ""
    return (
        draw.choice(["", "", " ", "\\"][: draw.choice([2, 3, 4])])
        + draw.choice(NAMES)
        + draw.choice(ENDS)
        + more
        + draw.choice(COMMENTS)
    )


def drawn_file(draw, may_include=True):
    """The bytes of a file; one that names no others names none."""
    options = [it for it in OPTIONS if may_include or not re.search(r"(?:-r|-c|--req\S*|--con\S*)(?: |'|=|o|$)", it)]
    ends = LINE_ENDS
    text = "--pre\n" if draw.random() < 0.4 else ""
    if draw.random() < 0.2:
        ends = LINE_ENDS + OTHER_ENDS
    for _ in range(draw.randrange(7)):
        text += drawn_line(draw, options) + draw.choice(ends)
    encoding = draw.choice(ENCODINGS) if draw.random() < 0.2 else "utf-8"
    if encoding in ("latin-1", "cp1252"):
        text = draw.choice([f"# -*- coding: {encoding} -*-\n", f"# a\n# vim: coding={encoding}\n"]) + re.sub(
            "[\x85\u2028\u2029]", "", text
        )
    return text.encode(encoding)


def told_by_pip(path):
    """What pip's parser tells: requirements and editables, each with its file and line; or None where it refuses."""
    try:
        with redirect_stderr(io.StringIO()):
            found = list(parse_requirements(os.fspath(path), session=None))
    except InstallationError:
        return None
    lines, editables = [], []
    for it in found:
        where = re.fullmatch(r"-([cr]) (.*) \(line (\d+)\)", it.comes_from)
        place = os.path.basename(where[2]), int(where[3])
        if it.is_editable:
            editables.append(place)
        else:
            lines.append((*place, it.requirement.strip(), it.constraint))
    return sorted(set(lines)), sorted(set(editables))


def told_by_listing(listing):
    """What a listing says; what it left out as a path is a requirement to pip's parser."""
    lines, editables = [], []
    for it in listing.lines:
        text = it.text if listing.is_plain else it.text.strip()
        if text:
            lines.append((os.path.basename(it.place.path), it.place.line, text, it.is_constraint))
    for it in listing.left_out:
        place = os.path.basename(it.place.path), it.place.line
        if it.why == "an editable requirement":
            editables.append(place)
        elif it.why.startswith("a path"):
            lines.append((*place, it.what.strip(), None))
    return lines, sorted(set(editables))


@unittest.skipUnless(parse_requirements, "pip's own reader is not importable: pip._internal.req.req_file")
class BesidePip(unittest.TestCase):
    """What pip's parser reads is read alike; but extras of a constraint, and a comment that a variable brings, are refused."""

    def setUp(self):
        room = tempfile.TemporaryDirectory()
        self.addCleanup(room.cleanup)
        self.folder = pathlib.Path(room.name)
        (self.folder / "sub").mkdir()
        logging.disable(logging.WARNING)
        self.addCleanup(logging.disable, logging.NOTSET)

    def assert_told(self, path):
        """Compares one file, and says whether pip reads it."""
        wanted = told_by_pip(path)
        try:
            listing = read(path)
        except InvalidInput as error:
            ours = ("a constraint can't have extras", "with the values of its variables the line has a comment")
            self.assertTrue(wanted is None or any(it in str(error) for it in ours), (str(error), wanted))
            return False
        lines, editables = told_by_listing(listing)
        if wanted is None:
            # (what is no option behind a requirement is left to the library, which reads the whole line)
            self.assertTrue(any(" -" in text for _, _, text, _ in lines), lines)
            return False
        given = {it[:2]: it for it in wanted[0]}
        self.assertEqual([it[:2] for it in sorted(lines, key=lambda it: it[:2])], [it[:2] for it in wanted[0]])
        for it in lines:
            if it[3] is not None:
                self.assertIn(it, wanted[0])
            elif "${" not in it[2]:
                self.assertEqual(given[it[:2]][2], it[2])
        self.assertEqual(editables, wanted[1])
        return True

    def test_random_files(self):
        draw = random.Random(1)
        read_by_pip = 0
        with mock.patch.dict(os.environ, VARIABLES):
            os.environ.pop("UNSET", None)
            for number in range(COUNT):
                root = self.drawn_root(draw, with_others=number % 10 == 0)
                with self.subTest(number, data=root.read_bytes()):
                    read_by_pip += self.assert_told(root)
        self.assertGreater(read_by_pip, COUNT // 4)

    def drawn_root(self, draw, with_others):
        """The path of a file, and perhaps others beside it that it may name."""
        for name in ("one.txt", "two.txt", "three four.txt", "sub/five.txt") if with_others else ():
            (self.folder / name).write_bytes(drawn_file(draw, may_include=False))
        root = self.folder / "root.txt"
        root.write_bytes(drawn_file(draw))
        return root

    def test_examples(self):
        paths = sorted(EXAMPLES.glob("*/*.txt"))
        lists = [it for it in paths if not re.search("candidates|expected", it.name)]
        self.assertGreater(len(lists), 8)
        for it in lists:
            self.assertTrue(self.assert_told(it), it)
