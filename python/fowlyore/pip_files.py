"""Requirements files of pip, of which a plain list of requirements is one kind.

A file in which nothing is pip's is handed to the library as it stands. Any other is read as pip reads it: its
encoding, its lines, those that a `\\` joins, comments, variables, options, and the files that it names. pip's
own parser is what the tests hold this against.
"""

import codecs
import errno
import os
import re
from typing import Any, BinaryIO, Dict, Iterator, List, NamedTuple, NoReturn, Optional, Set, Tuple

from . import _native
from .listings import COMMENT, LONGEST, LeftOut, Listing, Located, Origin, Place, Source
from .lists import InvalidInput, decoded, read_input, read_whole, refused, unread

__all__ = ["read_list", "read_pip"]

# How deep files may name one another.
DEEPEST = 50

# (the marks of UTF-32 before those of UTF-16, of which one is the front of another)
_MARKS = (
    (codecs.BOM_UTF8, "utf-8"),
    (codecs.BOM_UTF32_LE, "utf-32-le"),
    (codecs.BOM_UTF32_BE, "utf-32-be"),
    (codecs.BOM_UTF16_LE, "utf-16-le"),
    (codecs.BOM_UTF16_BE, "utf-16-be"),
)
_ENCODING = re.compile(rb"coding[:=]\s*([-\w.]+)")
_IS_COMMENT = re.compile(r"\s*#")
_VARIABLE = re.compile(r"\$\{([A-Z0-9_]+)\}")
_URL = re.compile(r"(?:https?|file):", re.I)
# What ends a line, or is white space, for pip alone; and what stands in no comment where something may be pip's.
_ENDS = (b"\\\n", b"\\\r", b"\x0b", b"\x0c", b"\x1c", b"\x1d", b"\x1e", b"\x1f")
# What ends a line for pip but not for the library, and the one character that ends no line and is white space for pip alone.
_OTHER_LINES = re.compile("[\x0b\x0c\x1c-\x1f\x85\u2028\u2029]|\r(?!\n)")
_ARCHIVES = (".whl", ".zip", ".tar", ".tgz", ".tbz", ".txz", ".tlz")
_SIGNS = (b" -", b"\n-", b"${", b"/", b"\n.", *(it.encode() for it in _ARCHIVES))
# What pip takes for a path, an archive or a URL without a name, where the library reads no requirement.
_UNNAMED = re.compile(
    r"[./]|(?:https?|file|ftp|(?:git|hg|svn|bzr)\+[a-z]+):|"
    r"[^;\[@]*\.(?:whl|zip|tgz|tbz|txz|tlz|tar|tar\.(?:gz|bz2|xz|lz|lzma))\s*(?:\[[^\]]*\]\s*)?(?:;|$)",
    re.I,
)
_BEHIND_PATH = re.compile(r"[;\[]")
# A part of a word, or what stands between words, as in a shell.
_PART = re.compile(r"""([ \t\r\n]+)|([^ \t\r\n'"\\]+)|'([^']*)'|"([^"\\]*(?:\\.[^"\\]*)*)"|\\(.)""", re.S)
_ESCAPED = re.compile(r"""\\(["\\])""")
_HASHES = re.compile(r"--hash=sha(?:256|384|512):[^\s'\"\\]+(?: +--hash=sha(?:256|384|512):[^\s'\"\\]+)*")
_STRONG = ("sha256", "sha384", "sha512")
# The options of a requirements file, by their spellings, and whether they have a value.
_OPTIONS = (
    (("-i", "--index-url", "--pypi-url"), True),
    (("--extra-index-url",), True),
    (("--no-index",), False),
    (("-c", "--constraint"), True),
    (("-r", "--requirement"), True),
    (("-e", "--editable"), True),
    (("-f", "--find-links"), True),
    (("--no-binary",), True),
    (("--only-binary",), True),
    (("--prefer-binary",), False),
    (("--require-hashes",), False),
    (("--pre",), False),
    (("--trusted-host",), True),
    (("--use-feature",), True),
    (("--global-option",), True),
    (("--hash",), True),
    (("-C", "--config-settings", "--config-setting"), True),
)
# Those that ask for something: of these on a line the first kind counts.
_ASKING = ("-e", "-r", "-c")
_SHORT = {"--requirement": "-r", "--constraint": "-c", "--editable": "-e"}


class _NoOption(Exception):
    """Why some words are no options."""


class _Options(NamedTuple):
    """The options of a line, with their values, and the words among them that are none."""

    named: List[Tuple[str, Optional[str]]]
    words: List[str]

    def first(self, option: str) -> Optional[str]:
        """The value of the first option of this name."""
        return next((value for name, value in self.named if name == option), None)


class _File(Source):
    """A file that is read: the path by which it is named, and its lines."""

    def __init__(self, path: str, text: str) -> None:
        self.path = path
        self.lines = text.splitlines()
        self.has_other_lines = bool(_OTHER_LINES.search(text))
        low = text.lower()
        self.has_archives = "${" in text or any(it in low for it in _ARCHIVES)

    def place(self, key: int) -> Place:
        return Place(self.path, key)

    def located(self, key: int, start: int, end: int) -> Located:
        _, begin, stop = self._unexpanded(key, start, end)
        return self.part(key, begin, stop)

    def given(self, key: int, start: int, end: int) -> str:
        text, begin, stop = self._unexpanded(key, start, end)
        return text[begin:stop]

    def _unexpanded(self, key: int, start: int, end: int) -> Tuple[str, int, int]:
        """A line before its variables were replaced, and where a part of it stands there."""
        parts, _ = _parts_of(self.lines, key - 1)
        text = "".join([it.text for it in parts]).strip()
        return text, _unexpanded(text, start, is_end=False), _unexpanded(text, end, is_end=True)

    def part(self, key: int, start: int, end: int) -> Located:
        """Where a part of a line stands, which is given before variables are replaced. Of one that goes over
        more than one line of the file it is what stands in the first."""
        parts, _ = _parts_of(self.lines, key - 1)
        text = "".join([it.text for it in parts])
        within, at = _in_parts(parts, start + len(text) - len(text.lstrip()))
        stop = min(at + end - start, len(within.text))
        columns = (max(0, within.column + it) for it in (at, stop))
        return Located(Place(self.path, within.line + 1), self.lines[within.line], *columns)


class _Line(NamedTuple):
    """A line while it is read: its file, its number, and its text before variables were replaced."""

    file: _File
    number: int
    given: str

    @property
    def place(self) -> Place:
        return Place(self.file.path, self.number)

    def said(self, text: str) -> str:
        """A text that was made of the line, for a message: of a line with variables, whose values may be secret, it is the line
        as it was given."""
        return self.given if "${" in self.given else text


class _Part(NamedTuple):
    """A part of a joined line: its line in the file, from 0, its text, and the column at which that stands
    there, which is -1 where a blank was put before it."""

    line: int
    text: str
    column: int


def _parts_of(lines: List[str], at: int) -> Tuple[List[_Part], int]:
    """The parts of the line that begins at an index, and the index after it."""
    parts: List[_Part] = []
    while at < len(lines):
        line, is_last = lines[at], True
        if _IS_COMMENT.match(line):
            # (a line that is a comment ends what was begun)
            parts.append(_Part(at, f" {line}" if parts else line, -1 if parts else 0))
        elif line.endswith("\\"):
            is_last = False
            parts.append(_Part(at, line.strip("\\"), len(line) - len(line.lstrip("\\"))))
        else:
            parts.append(_Part(at, line, 0))
        at += 1
        if is_last:
            break
    return parts, at


def _in_parts(parts: List[_Part], at: int) -> Tuple[_Part, int]:
    """The part in which a place of the joined line lies, and the place in it."""
    for it in parts[:-1]:
        if at < len(it.text):
            return it, at
        at -= len(it.text)
    return parts[-1], at


def _unexpanded(text: str, at: int, is_end: bool) -> int:
    """A place in a text before its variables were replaced. One within a value is its variable's, which ends
    there where a part does."""
    for found in _VARIABLE.finditer(text):
        value = os.environ.get(found[1])
        if not value or at < found.start():
            continue
        if at < found.start() + len(value):
            return found.end() if is_end and at > found.start() else found.start()
        at += len(found[0]) - len(value)
    return min(at, len(text))


def _logical_lines(lines: List[str]) -> Iterator[Tuple[int, str]]:
    """Lines without comments and the white space around them, those that a backslash joins as one, with the
    number of its first line; without those of which nothing is left."""
    at, count = 0, len(lines)
    while at < count:
        text = lines[at]
        number = at = at + 1
        if text.endswith("\\"):
            parts, at = _parts_of(lines, number - 1)
            text = "".join([it.text for it in parts])
        comment = text.find("#")
        while comment > 0 and not text[comment - 1].isspace():
            comment = text.find("#", comment + 1)
        text = text.strip() if comment < 0 else text[:comment].strip()
        if text:
            yield number, text


def read_list(path: str, file: BinaryIO) -> bytes:
    """The bytes of a requirements file of pip, or of a plain list. What is longer than a list may be, or never ends, is refused
    as the library refuses it, unless something of pip's may be in what a list may have, and then what is longer than any file
    may be."""
    data = read_input(file)
    if len(data) <= LONGEST:
        return data
    if _coding_of(data) is None and _is_plain(data, is_whole=False):
        raise unread(Place(path), f"longer than {LONGEST} bytes")
    return read_whole(path, file, begun=data)


def read_pip(path: str, data: bytes) -> Listing:
    """The list of a requirements file of pip, or of a plain list, whose bytes are handed in.

    Raises `InvalidInput` for what can't be read, by its file and line, and for files that name one another in
    a circle, or more than 50 files deep.

    >>> listing = read_pip("list.txt", b"--pre\\nfoo>=1 \\\\\\n  ,<2  # why\\n")
    >>> print(*listing.lines, *listing.left_out, sep="\\n")
    ListedLine(text='foo>=1   ,<2', place=Place(path='list.txt', line=2, entry=None), is_constraint=False)
    list.txt: line 1: left out: --pre (an option of pip)
    """
    coding = _coding_of(data)
    if coding is None and _is_plain(data):
        return Listing.of_plain(path, data)
    reading = _Reading(is_pips=coding is not None)
    reading.read_root(_File(path, _text(path, data, coding)))
    if not reading.is_pips:
        return Listing.of_plain(path, data)
    return Listing(
        path, reading.texts, reading.origins, constraints=reading.constraints, left_out=reading.left_out
    )  # fmt: skip


def _is_plain(data: bytes, is_whole: bool = True) -> bool:
    """Whether nothing of a file is pip's, which names no encoding; a quick answer, of which only yes is sure."""
    # (what isn't UTF-8 the library tells of)
    return not (_is_utf8(data, is_whole) and _may_be_pips(data))


def _may_be_pips(data: bytes) -> bool:
    """Whether something of a file may be pip's; a quick answer, for which comments are left out line by
    line."""
    if (
        not data.isascii()
        or data.endswith(b"\\")
        or data.count(b"\r") != data.count(b"\r\n")
        or any(it in data for it in _ENDS)
    ):
        return True
    fronts = []
    for line in data.split(b"\n"):
        front, mark, _ = line.partition(b"#")
        if mark and front and front[-1] not in b" \t":
            return True
        fronts.append(front.strip())
    bare = b"\n".join([b"", *fronts]).lower()
    return any(it in bare for it in _SIGNS)


def _coding_of(data: bytes) -> Optional[Tuple[str, int]]:
    """The encoding that a mark or a line of a file names, and the bytes of the mark; nothing where none is
    named."""
    for mark, encoding in _MARKS:
        if data.startswith(mark):
            return encoding, len(mark)
    front = data.split(b"\n", 2)[:2]
    named = (_ENCODING.search(it) for it in front if it[:1] == b"#")
    found = next((it[1].decode("ascii", "replace") for it in named if it), "utf-8")
    return None if found.lower().replace("_", "-") in ("utf-8", "utf8") or _is_same(data, found) else (found, 0)


def _is_same(data: bytes, encoding: str) -> bool:
    """Whether bytes are ASCII, and no other text in an encoding, or there is none of this name."""
    try:
        return data.isascii() and data.decode(encoding) == data.decode("ascii")
    except LookupError:
        return True
    except UnicodeError:
        return False


def _is_utf8(data: bytes, is_whole: bool) -> bool:
    """Whether bytes are UTF-8; where they aren't the whole, the last character may lack some."""
    try:
        codecs.utf_8_decode(data, "strict", is_whole)
    except UnicodeDecodeError:
        return False
    return True


def _text(path: str, data: bytes, coding: Optional[Tuple[str, int]]) -> str:
    """The text of a file, in UTF-8 where no encoding is named."""
    if coding is None:
        return decoded(path, data)
    encoding, begin = coding
    try:
        return data[begin:].decode(encoding)
    except LookupError:
        raise unread(Place(path), f"there is no encoding {encoding}") from None
    except UnicodeError as error:
        raise unread(Place(path), f"not in the encoding {encoding}: {error}") from None


class _Reading:
    """The lines of a file, and of those that it names, while they are read."""

    def __init__(self, is_pips: bool) -> None:
        self.texts: List[str] = []
        self.origins: List[Origin] = []
        self.constraints: Set[int] = set()
        self.left_out: List[LeftOut] = []
        # Whether something is pip's.
        self.is_pips = is_pips
        self._named: Set[str] = set()
        self._values: Dict[str, str] = {}
        self._parser: Any = None
        # The files that lead to the one that is read, and those that were read, with whether as constraints.
        self._within: List[Tuple[str, str]] = []
        self._done: Dict[Tuple[Tuple[str, str], bool], Place] = {}

    def read_root(self, file: _File) -> None:
        """Reads the file that no other one names."""
        key = _key_of(file.path)
        self._done[key, False] = Place(file.path)
        self._within.append(key)
        self._read(file, False)

    def _read(self, file: _File, is_constraint: bool) -> None:
        """Takes in the lines of a file, and where it names another one those of that."""
        self.is_pips |= file.has_other_lines or any(it.endswith("\\") and not _IS_COMMENT.match(it) for it in file.lines)
        for number, text in _logical_lines(file.lines):
            line = _Line(file, number, text)
            if "${" in text:
                text = self._expanded(line)
            if text[:1] == "-" or " -" in text:
                text = self._without_options(line, text)
            may_be_path = file.has_archives or "/" in text or text[:1] == "."
            if may_be_path and self._is_left_out(line, text):
                continue
            if is_constraint and text:
                self._constrain(file, number, text)
            if text:
                self.texts.append(text)
                self.origins.append((file, number))

    def _constrain(self, file: _File, number: int, text: str) -> None:
        """Takes down that the next line is a constraint. One with extras is refused, as pip does."""
        self.constraints.add(len(self.texts))
        if "[" in text and _has_extras(text):
            raise refused(file.located(number, 0, len(text)), "a constraint can't have extras")

    def _leave_out(self, what: str, line: _Line, why: str) -> None:
        self.is_pips = True
        self.left_out.append(LeftOut(what, line.place, why))

    def _is_left_out(self, line: _Line, text: str) -> bool:
        """Whether a line is a path, an archive or a URL without a name, which is reported then."""
        if not _UNNAMED.match(text) and not ("/" in text and os.path.isdir(_BEHIND_PATH.split(text, 1)[0].rstrip())):
            return False
        try:
            _native.requirement(_native.encoded(text))
        except _native.Fault:
            self._leave_out(line.said(text), line, "a path, an archive or a URL without a name")
            return True
        return False

    def _expanded(self, line: _Line) -> str:
        """A line with the values of its variables, of those that are set and not empty."""
        values, (file, number, text) = self._values, line
        for name in _VARIABLE.findall(text):
            if name in values:
                continue
            value = values[name] = os.environ.get(name) or ""
            if "\n" in value or "${" in value:
                why = f"the value of {name} has a line feed or a variable in it"
                at = text.index(f"${{{name}}}")
                raise refused(file.part(number, at, at + len(name) + 3), why)
        expanded = _VARIABLE.sub(lambda it: values[it[1]] or it[0], text)
        self.is_pips |= expanded != text
        if COMMENT.search(expanded):
            raise refused(file.part(number, 0, len(text)), "with the values of its variables the line has a comment")
        return expanded.strip()

    def _without_options(self, line: _Line, text: str) -> str:
        """A line without its options, of which those are followed that name files, and others are reported."""
        at = 0 if text.startswith("-") else text.find(" -") + 1
        if at and _HASHES.fullmatch(text, at):
            self._tell_once("--hash", line)
            return text[:at].rstrip()
        try:
            options = self._options_of(text[at:])
        except _NoOption as error:
            if at:
                return text
            raise refused(line.file.located(line.number, 0, len(text)), self._why_of(line, error)) from None
        self.is_pips = True
        front = text[:at].rstrip()
        looked_at = "" if front else self._follow(line, text, options)
        self._tell(line, options, looked_at)
        return front

    def _why_of(self, line: _Line, error: _NoOption) -> str:
        """Why the words of a line are no options; of a line with variables why they aren't before these are replaced."""
        if "${" not in line.given:
            return str(error)
        try:
            self._options_of(line.given)
        except _NoOption as of_given:
            return str(of_given)
        return "with the values of its variables the line has no options that can be read"

    def _options_of(self, text: str) -> _Options:
        """The options of a text, read as pip reads them."""
        if self._parser is None:
            self._parser = _new_parser()
        named: List[Tuple[str, Optional[str]]] = []
        values = self._parser.get_default_values()
        values.named = named
        _, left = self._parser.parse_args(_words_of(text), values)
        return _Options(named, left)

    def _tell(self, line: _Line, options: _Options, looked_at: str) -> None:
        """Tells what is passed over: each option once, but each of those that ask for something. One of these
        is looked at."""
        for name, value in options.named:
            if name == looked_at:
                looked_at = ""
                if name == "-e":
                    self._leave_out("-e", line, "an editable requirement")
            elif name in _ASKING:
                why = "pip looks at one such option on a line, and at none beside a requirement"
                self._leave_out(name if name == "-e" else line.said(f"{name} {value}"), line, why)
            else:
                self._tell_once(name, line)
        if options.words:
            self._leave_out(line.said(" ".join(options.words)), line, "words after an option, which pip passes over")

    def _tell_once(self, name: str, line: _Line) -> None:
        if name not in self._named:
            self._named.add(name)
            self._leave_out(name, line, "an option of pip")

    def _follow(self, line: _Line, text: str, options: _Options) -> str:
        """Reads the file that the options name. It gives the one option of a line that asks for something."""
        for option in _ASKING:
            named = options.first(option)
            if named is not None:
                if option != "-e":
                    self._include(line, text, option, named)
                return option
        return ""

    def _include(self, line: _Line, text: str, option: str, named: str) -> None:
        """Reads the file that an option names, but where it was read already, which is reported. Raises
        `InvalidInput` for one that is being read, or can't be read, at its place in the line."""
        if _URL.match(named):
            self._leave_out(f"{option} of a URL", line, "nothing is fetched")
            return
        path = os.path.join(os.path.dirname(line.file.path), named)
        where = line.file.located(line.number, max(0, text.find(named)), len(text))
        try:
            os.stat(path)
        except ValueError:  # of a NUL, or of half a surrogate pair
            raise refused(where, f"{line.said(path)!r} is no path") from None
        except OSError as error:
            # (making a key of it takes time that is quadratic in its length; of others it is reported below)
            if error.errno == errno.ENAMETOOLONG:
                raise refused(where, f"{line.said(path)}: {error.strerror}") from None
        key = _key_of(path)
        is_constraint = option == "-c"
        if key in self._within:
            raise refused(where, f"{line.said(path)} is being read: it names itself, or a file that names it")
        if len(self._within) >= DEEPEST:
            raise refused(where, f"more than {DEEPEST} files deep")
        if (key, is_constraint) in self._done:
            why = f"read already, by {self._done[key, is_constraint]}"
            self._leave_out(line.said(f"{option} {named}"), line, why)
            return
        self._done[key, is_constraint] = line.place
        inner = _File(path, _text_of(path, where, line.said(path)))
        self._within.append(key)
        self._read(inner, is_constraint)
        self._within.pop()


def _key_of(path: str) -> Tuple[str, str]:
    """What is the same for the same file in the same folder."""
    return os.path.realpath(path), os.path.realpath(os.path.dirname(path))


def _text_of(path: str, where: Located, said: str) -> str:
    """The text of a file that another one names at a place. It is called `said` where it can't be opened."""
    try:
        with open(path, "rb") as file:
            data = read_list(path, file)
    except InvalidInput:
        raise
    except (OSError, ValueError) as error:
        raise refused(where, f"{said}: {getattr(error, 'strerror', None) or error}") from None
    return _text(path, data, _coding_of(data))


def _has_extras(text: str) -> bool:
    try:
        return bool(_native.requirement(_native.encoded(text)).extras)
    except _native.Fault:
        return False


def _words_of(text: str) -> List[str]:
    """The words of a text, those that `shlex.split` finds, which takes time that is quadratic in a long word."""
    words: List[str] = []
    parts: List[str] = []
    at = 0
    while at < len(text):
        found = _PART.match(text, at)
        if found is None:
            what = "No escaped character" if text[at] == "\\" else "No closing quotation"
            raise _NoOption(f"options that can't be split: {what}")
        at = found.end()
        if found[1] is None:
            parts.append(next(it for it in (found[2], found[3], found[5], _ESCAPED.sub(r"\1", found[4] or "")) if it is not None))
        elif parts:
            words.append("".join(parts))
            parts = []
    return [*words, "".join(parts)] if parts else words


class _Words:
    """Words that are taken, and put back, at their front in constant time: what the module for options needs of a list."""

    def __init__(self, words: List[str]) -> None:
        self._left = words[::-1]

    def __len__(self) -> int:
        return len(self._left)

    def __getitem__(self, at: int) -> str:
        return self._left[-1 - at]

    def __delitem__(self, at: int) -> None:
        del self._left[-1 - at]

    def pop(self, at: int) -> str:
        return self._left.pop(-1 - at)

    def insert(self, at: int, word: str) -> None:
        self._left.insert(len(self._left) - at, word)

    def left(self) -> List[str]:
        """Those that were not taken."""
        return self._left[::-1]


def _new_parser() -> Any:
    """A parser of the options of a requirements file, by the module that pip has it from."""
    import optparse

    class Parser(optparse.OptionParser):
        def error(self, msg: str) -> NoReturn:
            raise _NoOption(msg)

        def _process_args(self, largs: List[str], rargs: List[str], values: Any) -> None:
            words: Any = _Words(rargs)
            super()._process_args(largs, words, values)
            rargs[:] = words.left()

    def take(option: Any, spelling: str, value: Optional[str], parser: Any) -> None:
        name = _SHORT.get(spelling, spelling)
        algorithm, colon, _ = (value or "").partition(":")
        if name == "--hash" and not (colon and algorithm in _STRONG):
            parser.error(f"--hash wants one of {', '.join(_STRONG)}, a colon and a value")
        parser.values.named.append((name, value))

    parser = Parser(add_help_option=False, usage="")
    for spellings, has_value in _OPTIONS:
        parser.add_option(*spellings, action="callback", callback=take, type="string" if has_value else None)
    return parser
