"""Lists of requirements: `check`, `matrix`, `same`, `covers`, `conflicts` and `normal`, as in the program `reqs`.

A list is given in one of four ways: a str or bytes is its text, a path (`pathlib.Path`) names a file with
it, a `Listing` is what `read` has read of a file, and any other iterable has its lines: texts, or
`Requirement`s. Where a file can't be read, `OSError` is raised."""

import enum
import json
import numbers
import operator
import os
import re
from dataclasses import dataclass, field
from typing import (
    TYPE_CHECKING, Any, BinaryIO, Callable, Iterable, Iterator, List, Mapping, Optional, Sequence, Set, Tuple, Type, TypeVar, Union,
)  # fmt: skip

from . import _native
from ._bounds import USUAL, Most, most_cases, most_clauses, most_nodes
from .errors import Refused, characters, columns, told
from .distributions import installed
from .listings import COMMENT, ENVIRONMENTS, LONGEST, REQUIRES_PYTHON, Listing, Located, Place, TooLong
from .markers import Marker, TooManyClauses, TooManyNodes, completed, environment_json, of_mapping
from .requirements import InvalidRequirement, Requirement
from .specifiers import SpecifierSet
from .urls import warn_of_marker_in
from .version import Version

__all__ = [
    "Comparison", "Conflict", "Covering", "InvalidInput", "Row", "check", "conflicts", "covers", "matrix", "matrix_texts", "normal",
    "same",
]  # fmt: skip

# How many cases a package may have in a table where no limit is named, and the greatest limit, as in `reqs`.
LIMIT, GREATEST_LIMIT = 4096, 1_000_000
# The bytes of the longest file that is read, of which the library gets something else.
LONGEST_FILE = 268_435_456
if TYPE_CHECKING:
    PathLike = os.PathLike[str]
else:
    PathLike = os.PathLike  # (which has no parts in Python 3.8)
Requirements = Union[str, bytes, PathLike, Listing, Iterable[Union[str, Requirement]]]
Environment = Union[None, str, bytes, PathLike, Mapping[str, str]]
Environments = Union[str, bytes, PathLike, Iterable[Mapping[str, str]]]
Several = Mapping[str, Union[str, Version, Iterable[Union[str, Version]]]]
Candidates = Union[None, str, bytes, PathLike, Several, Iterable[Tuple[str, Union[str, Version]]]]
Extras = Union[str, Iterable[str]]
Assumption = Union[None, str, Marker]
Answer = TypeVar("Answer")

# A text that is meant as a path, most likely, though a package could have such a name.
_PATH = re.compile(r"\S+\.(txt|in|json|toml)")
_ROW = re.compile(r"([^ \[]+)(?:\[([^\]]*)\])? (.*)")
# A line in which a `;` stands at the end of something that may be a URL.
_WITH_URL = re.compile(rb"@[^@;\n]*(?<!\s);")
# A candidate's line that the library reads as one name and one version, or refuses.
_CANDIDATE = re.compile(r"[^ #\n][^#\n]*")
_WHITE = " \t\n\r\f"
# What is in no name of an extra: what would end its line, and what isn't UTF-8, of which the library tells by a byte of all extras.
_NO_NAME = re.compile("[\n\ud800-\udfff]")
# What prints as a text that nobody meant, and that may be read as a name or a version.
_NO_TEXTS = (bytes, bytearray, memoryview, numbers.Complex, os.PathLike, enum.Enum, type(...), type(NotImplemented), Version)
# How the library refuses a package for the number of its cases, once it has read all inputs.
_TOO_MANY_CASES = f"requirements: more than {LIMIT} cases for "
# What stands between the elements of a JSON array.
_BETWEEN = re.compile(r"[ \t\n\r,]*")
# What stands before the reason in the library's refusal of a line, of which a part may be told.
_OF_LINE = re.compile(r"[a-z]+: line [0-9]+(?:(, byte [0-9]+, length [0-9]+)\n|: )")
# The place of a difference that is in all environments.
_EVERYWHERE = "all environments"


class InvalidInput(Refused):
    """An input was refused. `input` is its name, as `requirements` or `candidates`, `path` the file that it
    came from, and `entry` the entry of a table, as `project.dependencies[0]`, if it came from one. As a text
    the error begins with the file, or with the name if there is none.

    >>> check("foo=1", candidates="")
    Traceback (most recent call last):
    fowlyore.lists.InvalidInput: requirements: line 1...
    """

    def __init__(
        self,
        message: str = "",
        *,
        input: Optional[str] = None,
        path: Optional[str] = None,
        entry: Optional[str] = None,
        **place: Any,
    ) -> None:
        super().__init__(message, **place)
        self.input = input
        self.path = path
        self.entry = entry

    def __str__(self) -> str:
        # (the library's message has the line with a caret in it)
        front = f"{self.input}: "
        if self.path and self.message.startswith(front):
            return f"{self.path}: {self.message[len(front) :]}"
        return self.message


class InputOfTooManyNodes(InvalidInput, TooManyNodes):
    """A list whose markers' decision trees have more nodes than a call may make (`fowlyore.bounds`)."""


class InputOfTooManyClauses(InvalidInput, TooManyClauses):
    """A list of which a call would write a marker of more clauses than it may make (`fowlyore.bounds`)."""


_KINDS = {_native.TooManyNodes: InputOfTooManyNodes, _native.TooManyClauses: InputOfTooManyClauses}


@dataclass(frozen=True)
class Row:
    """The row of a required package: the extras that are required, and `outcome`, which is the text of the
    selected version, `none` or `direct`."""

    name: str
    extras: Tuple[str, ...]
    outcome: str

    @property
    def is_none(self) -> bool:
        """Whether no candidate is selected."""
        return self.outcome == "none"

    @property
    def is_direct(self) -> bool:
        """Whether the package is required by a URL."""
        return self.outcome == "direct"

    @property
    def version(self) -> Optional[Version]:
        """The selected version, or None."""
        return None if self.is_none or self.is_direct else Version(self.outcome)

    def __str__(self) -> str:
        return f"{self.name}{'[' + ','.join(self.extras) + ']' if self.extras else ''} {self.outcome}"


@dataclass(frozen=True)
class _Relation:
    """Whether two lists are related as is asked, in which case it is true, and otherwise the first package and place where not."""

    package: Optional[str] = None
    place: Optional[str] = None

    @property
    def marker(self) -> Optional[str]:
        """The marker of the first place where the answer is no. None if that is everywhere, or if the answer is yes."""
        return None if self.place == _EVERYWHERE else self.place

    def __bool__(self) -> bool:
        return self.package is None

    def __str__(self) -> str:
        return "yes" if self else f"no\n{self.package}\n{self.place}"


@dataclass(frozen=True)
class Comparison(_Relation):
    """Whether two lists require the same everywhere, in which case it is true; otherwise `package` is the
    first package that differs, and `place` says where: a marker's text, or `all environments`."""


@dataclass(frozen=True)
class Covering(_Relation):
    """Whether a lock requires whatever requirements do, in which case it is true; otherwise `package` is the
    first package that it doesn't cover, `place` says where: a marker's text, or `all environments`, and `lines`
    are the numbers of the requirements' lines that apply there. For requirements that `read` has read, and that
    aren't plain, the numbers count the lines that ask for something, and `places` is where these stand."""

    lines: Tuple[int, ...] = ()
    places: Tuple[str, ...] = field(default=(), repr=False)

    def __str__(self) -> str:
        return "yes" if self else f"{super().__str__()}\n{','.join(self.places or map(str, self.lines))}"


@dataclass(frozen=True)
class Conflict:
    """A package, the numbers of its lines that contradict each other, and whether one of them names a
    pre-release. No plain version, one without a local part that is no post-release, is accepted by all these
    lines. For a list that `read` has read, and that isn't plain, the numbers count its `lines`, and `places`
    is where these stand."""

    name: str
    lines: Tuple[int, ...]
    names_prerelease: bool
    places: Tuple[str, ...] = field(default=(), repr=False)

    def __str__(self) -> str:
        return f"{self.name} {','.join(self.places or map(str, self.lines))}{' pre' if self.names_prerelease else ''}"


@dataclass(frozen=True)
class Input:
    """An input of a call: its name, its bytes, the file that it was read from, and the list that a reader made of that, where
    its lines are others than the file's."""

    name: str
    text: bytes
    path: Optional[str] = None
    listing: Optional[Listing] = None

    def place(self, number: int) -> str:
        """Where a line came from."""
        return str(self.listing.place(number)) if self.listing else f"{self.path or self.name}: line {number}"


def read_input(file: BinaryIO) -> bytes:
    """The bytes of a file that go to the library as they stand; of one that is too long for it, or never ends, as many as
    it takes for the library to refuse them."""
    return file.read(LONGEST + 1)


def read_whole(path: str, file: BinaryIO, name: str = "requirements", begun: bytes = b"") -> bytes:
    """The bytes of any other file, of which some may have been read. One that is too long, or never ends, is refused."""
    data = begun + file.read(LONGEST_FILE + 1 - len(begun))
    if len(data) > LONGEST_FILE:
        raise unread(Place(path), f"longer than {LONGEST_FILE} bytes", name)
    return data


def as_bytes(name: str, given: Any, otherwise: Callable[[Any], str]) -> Input:
    """An input that is a text, a path, or something that `otherwise` turns into a text; or one that was made
    before."""
    if isinstance(given, Input):
        return given
    if isinstance(given, (bytes, bytearray)):
        return Input(name, bytes(given))
    if isinstance(given, os.PathLike):
        path = os.fspath(given)
        with open(path, "rb") as file:
            return Input(name, read_input(file), os.fsdecode(path))
    return Input(name, _native.encoded(given if isinstance(given, str) else otherwise(given)))


def requirements_input(given: Requirements, name: str = "requirements") -> Input:
    if isinstance(given, str) and not isinstance(given, os.PathLike) and _PATH.fullmatch(given):
        raise InvalidInput(f"{name}: {given!r} is read as a list's text: give a pathlib.Path for a file", input=name)
    if isinstance(given, Listing):
        read = Input(name, given.text, given.path, None if given.is_plain else given)
    else:
        read = as_bytes(name, given, lambda lines: _joined(name, lines))
    if _WITH_URL.search(read.text):
        _warn_of_urls(read)
    return read


def _asking_input(given: Requirements, name: str = "requirements") -> Input:
    """An input of which each line asks for something: constraints as lines that apply where others do."""
    if isinstance(given, Listing) and given.has_constraints:
        try:
            given = given.without_constraints()
        except TooLong as error:
            raise unread(error.place, error.why, name) from None
    return requirements_input(given, name)


def _warn_of_urls(given: Input) -> None:
    """Warns of each line whose URL ends in a marker."""
    for number, line in enumerate(given.text.split(b"\n"), 1):
        if _WITH_URL.search(line):
            text = COMMENT.split(line.decode("utf-8", "replace"), maxsplit=1)[0]
            url = _url_of(text)
            at, listing = text.rfind(url), given.listing
            written = listing.given(number, at, at + len(url)) if listing and url else url
            warn_of_marker_in(url, f"{given.place(number)}: ", written)


def _url_of(text: str) -> str:
    """The URL of a requirement without a marker. Empty if it has no URL, or has a marker, or if the text is
    not a requirement."""
    try:
        parts = _native.requirement(_native.encoded(text))
    except _native.Fault:
        return ""
    return parts.url if parts.marker is None else ""


def _joined(name: str, lines: Iterable[Union[str, Requirement]]) -> str:
    """Lines as one text. Each may end with a line feed, as the lines of a file do, and has no other."""
    if isinstance(lines, Mapping):
        raise TypeError(f"{name}: lines are wanted, not a mapping, of which the values would be lost")
    texts = [_line(name, number, it) for number, it in enumerate(lines, 1)]
    return "".join(f"{it}\n" for it in texts)


def _line(name: str, number: int, given: Union[str, Requirement]) -> str:
    """One line without its end. A requirement isn't printed for it, since its marker may have no text that
    reads back."""
    try:
        text = given._line() if isinstance(given, Requirement) else _text_of("a requirement", given).rstrip("\r\n")
    except InvalidRequirement as error:
        raise InvalidInput(f"{name}: line {number}: {error}", input=name, text=error.text, line=number) from None
    if "\n" in text:
        raise InvalidInput(f"{name}: line {number}: {text!r} goes over more than one line", input=name, text=text, line=number)
    return text


def _text_of(what: str, given: object) -> str:
    """The text of what prints as it was written, as a name, or a version of packaging. Raises `TypeError` for anything that
    prints as another text than was meant, as 1.10 does, or a path. Of a str it is its characters, though a member of an
    `Enum` prints as another text."""
    if isinstance(given, str):
        return str.__str__(given)
    if given is None or isinstance(given, _NO_TEXTS):
        raise TypeError(f"{what} is given as a str, not as {type(given).__name__}")
    return str(given)


def environment_input(given: Environment) -> Input:
    return as_bytes("environment", given, lambda it: environment_json(completed(it)).decode())


def environments_input(given: Environments) -> Input:
    def joined(those: Iterable[Mapping[str, str]]) -> str:
        return ",".join(environment_json(of_mapping(it)).decode() for it in those)

    return as_bytes("environments", given, lambda those: f"[{joined(those)}]")


def candidates_input(given: Candidates) -> Input:
    return as_bytes("candidates", installed() if given is None else given, _candidate_lines)


def _candidate_lines(given: Any) -> str:
    """A line for each candidate, which the library reads as exactly this candidate."""
    pairs = _candidate_pairs(given) if isinstance(given, Mapping) else list(given)
    if any(issubclass(it, str) for it in set(map(type, pairs))):
        raise TypeError("a candidate is a pair of a name and a version, not a text")
    names: List[Any] = []
    versions: List[Any] = []
    try:
        for name, version in pairs:
            names.append(name)
            versions.append(version)
    except (TypeError, ValueError):  # of another number of values, or of none
        raise TypeError(f"a candidate is a pair of a name and a version, not {told(pairs[len(names)])}") from None
    if {str}.issuperset(map(type, names)) and {str, Version}.issuperset(map(type, versions)):
        text, joined = "".join([f"{name} {version}\n" for name, version in zip(names, versions)]), "".join(names)
        # (a comment, an empty name, white space in one and a line feed, looked for in all of them at once)
        if "#" not in text and "\n " not in f"\n{text}" and joined.split() == [joined] and text.count("\n") == len(names):
            return text
    return "".join(map(_candidate_line, names, versions))


def _candidate_line(name: str, version: Union[str, Version]) -> str:
    # (a version of a class of its own may print something else)
    said = Version.__str__(version) if isinstance(version, Version) else _text_of("a version", version)
    parts = [it.strip(_WHITE) for it in (_text_of("a name", name), said)]
    line = " ".join(parts)
    if not _CANDIDATE.fullmatch(line) or parts[0].split() != parts[:1]:
        raise InvalidInput(f"candidates: {line!r} is no name with a version", input="candidates")
    return f"{line}\n"


def _candidate_pairs(given: Mapping[str, Any]) -> List[Tuple[str, Union[str, Version]]]:
    """The pairs of a mapping, in which a single version needs no list."""
    return [(name, version) for name, it in given.items() for version in _versions_of(name, it)]


def _versions_of(name: Any, given: Any) -> Iterator[Union[str, Version]]:
    """The versions that a mapping has for a name."""
    try:
        return iter([given] if isinstance(given, (str, Version)) else given)
    except TypeError:
        raise TypeError(f"the versions of {told(name)} are one str or several, not {type(given).__name__}") from None


def extras_input(given: Extras) -> Input:
    extras = [given] if isinstance(given, str) else list(given)
    if any(not isinstance(it, str) or not it or _NO_NAME.search(it) for it in extras):
        raise InvalidInput(f"extras: {told(extras)}: an extra is a name", input="extras")
    return Input("extras", _native.encoded("\n".join(extras)))


def _assumed(given: Assumption, plain: Callable[..., str], where: Callable[..., str]) -> Tuple[Callable[..., str], List[Input]]:
    """The call without an assumption or with one, and the marker that is assumed. Raises `InvalidMarker` for another text."""
    marker = given if given is None or isinstance(given, Marker) else Marker(given)
    return (plain, []) if marker is None else (where, [Input("assume", marker._bytes())])


def answered(call: Callable[..., Answer], *inputs: Input, numbers: Tuple[int, ...] = ()) -> Answer:
    """The answer of a call, or the error with the input that is refused and the place in it."""
    try:
        return call(*(it.text for it in inputs), *numbers)
    except _native.Fault as fault:
        raise _of_kind(_refusal(fault, inputs), _KINDS.get(type(fault))) from None


def _of_kind(error: InvalidInput, kind: Optional[Type[InvalidInput]]) -> InvalidInput:
    """An error as one of this kind."""
    if kind is None:
        return error
    place = {"line": error.line, "start": error.start, "end": error.end}
    return kind(error.message, input=error.input, path=error.path, entry=error.entry, text=error.text, **place)


def _checked(limit: int) -> int:
    """A limit that `reqs` accepts: the library gets 64 bits of it, and sees no others."""
    number = operator.index(limit)
    if not 0 <= number <= GREATEST_LIMIT:
        # (a number of some thousand digits has no text)
        said = number if abs(number) < 1 << 64 else "a number past 64 bits"
        raise InvalidInput(f"limit: {said} is not from 0 to {GREATEST_LIMIT}", input="limit")
    return number


def _refusal(fault: _native.Fault, inputs: Sequence[Input]) -> InvalidInput:
    if not 1 <= fault.input <= len(inputs):
        return InvalidInput(fault.message)
    given = inputs[fault.input - 1]
    number, first, length = fault.line, fault.start, fault.length
    is_no_text = fault.message == f"{given.name}: not UTF-8 at byte {first}"
    if is_no_text:
        # (the library tells of a byte of the whole text)
        number, first, length = given.text.count(b"\n", 0, first) + 1, first - given.text.rfind(b"\n", 0, first) - 1, 1
    if not number:
        return InvalidInput(fault.message, input=given.name, path=given.path)
    line = given.text.split(b"\n")[number - 1]
    start, end = characters(line, first, length) if first or length else (None, None)
    text = line.decode("utf-8", "replace")
    if given.listing is not None:
        at = given.listing.located(number, start or 0, end or 0)
        return unread(at.place, "not UTF-8", given.name, at.text) if is_no_text else _told_where(fault.message, given.name, at)
    return InvalidInput(
        fault.message, input=given.name, path=given.path, text=text, line=number, start=start, end=end
    )


def _told_where(message: str, name: str, at: Located) -> InvalidInput:
    """A refusal of a line by the place that it came from, in the library's words."""
    found = _OF_LINE.match(message)
    if found is None:
        raise AssertionError(f"{message!r} tells of no line")
    why = message[found.end() :]
    if not found[1]:
        return unread(at.place, why, name, at.text)
    # (what follows are the line and a caret below it)
    return refused(at, "\n".join(why.split("\n")[:-2]), name)


def refused(at: Located, why: str, name: str = "requirements") -> InvalidInput:
    """The error of a part of a line, in the words of the library."""
    start, end = (len(_native.encoded(at.text[:it])) for it in (at.start, at.end))
    marks = " " * columns(at.text[: at.start]) + "^" * max(1, columns(at.text[at.start : at.end]))
    return InvalidInput(
        f"{name}: {at.place.within}, byte {start}, length {end - start}\n{why}\n{at.text}\n{marks}", input=name,
        path=at.place.path, text=at.text, line=at.place.line, start=at.start, end=at.end, entry=at.place.entry,
    )  # fmt: skip


def unread(place: Place, why: str, name: str = "requirements", text: Optional[str] = None) -> InvalidInput:
    """The error of a place in a file, or of the file as a whole; `text` is what stands there, where it is known."""
    front = f"{place.within}: " if place.within else ""
    return InvalidInput(
        f"{name}: {front}{why}", input=name, path=place.path, text=text, line=place.line, entry=place.entry
    )  # fmt: skip


def decoded(path: str, data: bytes, name: str = "requirements") -> str:
    """The text of a file in UTF-8. Raises `InvalidInput` for any other, by its line."""
    try:
        return data.decode("utf-8")
    except UnicodeDecodeError as error:
        line = data.count(b"\n", 0, error.start) + 1
        raise unread(Place(path, line), f"not UTF-8 at byte {error.start} of the file", name) from None


def rows_of(text: str) -> List[Row]:
    """The rows of an answer."""
    rows = []
    for line in _native.lines_of(text):
        found = _ROW.fullmatch(line)
        if found is None:
            raise AssertionError(f"{line!r} is no row")
        rows.append(Row(found[1], tuple(found[2].split(",")) if found[2] else (), found[3]))
    return rows


def check(
    requirements: Requirements,
    environment: Environment = None,
    candidates: Candidates = None,
    extras: Extras = (),
    *,
    ignore_requires_python: bool = False,
) -> List[Row]:
    """For each package that an applicable line requires, by name, the highest candidate that all these lines
    accept.

    `environment` has values that replace the running interpreter's, `candidates` are names with versions, by
    default what is installed, and `extras` are the required ones. A pre-release is selected only if a line
    names one. The versions of an interpreter of a pre-release are read as `Marker.evaluate` says, except in
    an environment that is a text or a file. Raises `InvalidInput` for an input that is refused.

    Of a list that `read` has read its constraints hold for what other lines ask for, and an environment that its file doesn't
    admit, by `requires-python` or a lock file's `environments`, raises `InvalidInput`, unless `ignore_requires_python` is set.

    >>> candidates = {"requests": ["2.31.0", "2.33.0rc1"], "numpy": ["1.26.3"]}
    >>> for row in check(["requests[socks]>=2.8.1", "NumPy==1.26.4"], candidates=candidates):
    ...     print(row)
    numpy none
    requests[socks] 2.31.0
    """
    inputs = (
        requirements_input(requirements), environment_input(environment), candidates_input(candidates),
        extras_input(extras),
    )  # fmt: skip
    return rows_checked(inputs, ignore_requires_python)


def rows_checked(inputs: Tuple[Input, Input, Input, Input], ignore_requires_python: bool = False) -> List[Row]:
    """The rows of `check`, of its inputs."""
    rows = rows_of(answered(_native.check, *inputs))
    listing = inputs[0].listing
    if listing is not None and listing.has_constraints:
        asked = rows_of(answered(_native.check, Input("requirements", listing.asking), *inputs[1:]))
        names = {it.name for it in asked}
        rows = [it for it in rows if it.name in names]
    if listing is not None and not ignore_requires_python:
        _hold_to_file(listing, inputs[1], json.loads(inputs[1].text), inputs[3])
    return rows


def _hold_to_file(
    listing: Listing, given: Input, environment: Mapping[str, str], extras: Input, number: Optional[int] = None
) -> None:
    """Refuses an environment that the file of a list doesn't admit: by its Python, as pip does by the numbers of
    the release, and for a line that asks for one where it applies; or by the markers of which some one has to hold."""
    front = f"{given.name}: " if number is None else f"{given.name}: environment {number}: "
    full = environment.get("python_full_version", "")
    alone = Input(given.name, _native.encoded(json.dumps(environment)))
    for it in listing.assumed:
        if it.what != REQUIRES_PYTHON or SpecifierSet(it.text).contains(Version(full).base_version):
            continue
        line = Input("requirements", _native.encoded(it.line))
        if not it.line or answered(_native.check, line, alone, Input("candidates", b""), extras) != "":
            why = f"Python {full} is not in {it.text}, which {it.place} asks for"
            raise InvalidInput(f"{front}{why}", input=given.name, path=given.path)
    markers = _native.encoded("\n".join(it.text for it in listing.assumed if it.what == ENVIRONMENTS))
    if markers and b"1" not in _native.markers_hold(markers, alone.text, b""):
        why = f"none of the markers holds that {listing.path}: {ENVIRONMENTS} has"
        raise InvalidInput(f"{front}{why}", input=given.name, path=given.path)


def matrix(
    requirements: Requirements,
    environments: Environments,
    candidates: Candidates = None,
    extras: Extras = (),
    limit: Optional[int] = None,
    *,
    nodes: Most = USUAL,
    cases: Most = USUAL,
    ignore_requires_python: bool = False,
) -> List[List[Row]]:
    """The rows of `check` for each of some environments, which are complete: no value is taken from the
    running interpreter. The versions of a mapping are read as `Marker.evaluate` says, those of a text or a
    file as they are written.

    The rows are read off one table of the cases of each package, which are sets of its lines that apply
    together. Where a package has more than 4096 of them, or rows of a package `env` can't be told from the
    lines between environments, `check` is called for each environment, which takes longer. With a `limit`,
    from 0 to 1,000,000, a package with more cases is refused: who names one wants the table or none.

    `nodes` and `cases` are bounds on the nodes of the markers' trees and on the cases of all packages together,
    or None for none (`fowlyore.bounds` has those that are not given).

    Raises `InvalidInput` for an input that is refused, for the first package by name with more cases than a given
    `limit`, and beyond a bound, which is a `TooManyNodes` beyond that on nodes.

    >>> from fowlyore import default_environment
    >>> linux = {**default_environment(), "sys_platform": "linux"}
    >>> windows = {**default_environment(), "sys_platform": "win32"}
    >>> matrix("colorama ; sys_platform == 'win32'", [linux, windows], {"colorama": ["0.4.6"]})
    [[], [Row(name='colorama', extras=(), outcome='0.4.6')]]
    """
    texts = matrix_texts(
        requirements, environments, candidates, extras, limit, nodes=nodes, cases=cases,
        ignore_requires_python=ignore_requires_python,
    )  # fmt: skip
    return [rows_of(it) for it in texts]


def matrix_texts(
    requirements: Requirements,
    environments: Environments,
    candidates: Candidates = None,
    extras: Extras = (),
    limit: Optional[int] = None,
    *,
    nodes: Most = USUAL,
    cases: Most = USUAL,
    ignore_requires_python: bool = False,
) -> List[str]:
    """The rows of `matrix` as one text for each environment, which is what `reqs check` prints for it.

    For large answers this needs a small part of the time and of the memory of `matrix`. A `limit`, and having
    none, means what it does there, and so do `nodes` and `cases`.

    >>> environment = environment_json(completed(None)).decode()
    >>> matrix_texts("b>=1\\na", f"[{environment}, {environment}]", {"a": ["1"], "b": []})
    ['a 1\\nb none\\n', 'a 1\\nb none\\n']
    """
    inputs = (
        requirements_input(requirements), environments_input(environments), candidates_input(candidates),
        extras_input(extras),
    )  # fmt: skip
    most = most_nodes(nodes), most_cases(cases)
    texts = _texts_of_matrix(inputs, limit, most)
    listing = inputs[0].listing
    if listing is not None and listing.has_constraints:
        asked = _texts_of_matrix((Input("requirements", listing.asking), *inputs[1:]), limit, most)
        texts = [_rows_of_names(text, _names_of(those)) for text, those in zip(texts, asked)]
    if listing is not None and not ignore_requires_python:
        for number, it in enumerate(json.loads(inputs[1].text), 1):
            _hold_to_file(listing, inputs[1], it, inputs[3], number)
    return texts


def _names_of(text: str) -> Set[str]:
    """The names of rows."""
    return set(map(_name_of, _native.lines_of(text)))


def _name_of(row: str) -> str:
    """The name of a row."""
    return row.split(" ", 1)[0].split("[", 1)[0]


def _rows_of_names(text: str, names: Set[str]) -> str:
    """The rows of some names."""
    return "".join(f"{it}\n" for it in _native.lines_of(text) if _name_of(it) in names)


def _texts_of_matrix(
    inputs: Tuple[Input, Input, Input, Input], limit: Optional[int], most: Tuple[int, int]
) -> List[str]:
    """The rows of each environment, as one text; without a limit also of packages that have too many cases
    for a table. `most` are bounds on nodes and on all cases."""
    numbers = (LIMIT if limit is None else _checked(limit), *most)
    try:
        answer = answered(_native.matrix, *inputs, numbers=numbers)
    except InvalidInput as error:
        if limit is not None or not error.message.startswith(_TOO_MANY_CASES):
            raise
        return _texts_of_each(inputs)
    texts = texts_of(answer)
    # (a row of the package `env` may look like the line before an environment's rows)
    return texts if len(texts) == len(json.loads(inputs[1].text)) else _texts_of_each(inputs)


def _texts_of_each(inputs: Tuple[Input, Input, Input, Input]) -> List[str]:
    """The rows of each environment, as one text, by a call for each; the inputs are ones that `matrix` has
    read."""
    each = (Input("environments", it) for it in _elements(inputs[1].text.decode()))
    return [answered(_native.check, inputs[0], it, *inputs[2:]) for it in each]


def _elements(array: str) -> Iterator[bytes]:
    """The elements of a JSON array that the library has read, each as its text."""
    decoder, at = json.JSONDecoder(), array.index("[") + 1
    while True:
        at = _BETWEEN.match(array, at).end()  # type: ignore[union-attr]
        if array[at] == "]":
            return
        begin, (_, at) = at, decoder.raw_decode(array, at)
        yield array[begin:at].encode()


def texts_of(answer: str) -> List[str]:
    """The texts after the lines of `env` with a number."""
    found = [it.span() for it in re.finditer(r"\nenv [0-9]+(?=\n)", f"\n{answer}")]
    ends = [*(begin for begin, _ in found[1:]), len(answer)]
    return [answer[begin:end] for (_, begin), end in zip(found, ends)]


def same(
    left: Requirements, right: Requirements, limit: int = LIMIT, *, assume: Assumption = None, nodes: Most = USUAL,
    clauses: Most = USUAL, cases: Most = USUAL,
) -> Comparison:  # fmt: skip
    """Whether two lists require the same of every package, whatever the truth of their markers is, and if
    not, where they first differ.

    What is compared of a package is whether it is required, its extras, its version range, and whether a
    specifier names a pre-release. Ranges decide only plain versions, those without a local part that are no
    post-releases. So of two lists that require the same, `check` can still select different builds: as of
    `torch==2.0+cu118` with `torch<=2.0`, and `torch==2.0+cu121` with `torch<=2.0`. Ranges also differ in
    points between versions, as those of `~=1.2` and `>=1.2,<2` do. Raises `InvalidInput` for a list that is
    refused, for the first line that can't be compared, and for a package with more cases than `limit`.

    `nodes`, `clauses` and `cases` are bounds on the nodes of both lists' trees, on the clauses of the `place` and on
    the cases of all packages of either list, or None for none (`fowlyore.bounds` has those that are not given).
    Beyond the first two the `InvalidInput` is a `TooManyNodes` or a `TooManyClauses`.

    With `assume`, a `Marker` or its text, only the environments and extras count for which it holds, as if each line's
    marker were joined with it by `and`: one that always holds changes nothing, and where none ever does all lists are the
    same. Raises `InvalidMarker` for a text that is not a marker, and `ImportError` where the library is older than this.

    >>> bool(same("foo>=1,<2", ["foo<2.0", "foo>=1"]))
    True
    >>> bool(same("foo ; os_name == 'nt'", "foo ; sys_platform == 'win32'", assume="os_name != 'nt' and sys_platform != 'win32'"))
    True
    >>> same("foo>=1", "foo>=1\\nfoo<2 ; os_name == 'nt'")
    Comparison(package='foo', place="os_name == 'nt'")
    """
    call, assumed = _assumed(assume, _native.same, _native.same_where)
    inputs = _asking_input(left, "left"), _asking_input(right, "right"), *assumed
    numbers = _checked(limit), most_nodes(nodes), most_clauses(clauses), most_cases(cases)
    lines = _native.lines_of(answered(call, *inputs, numbers=numbers))
    return Comparison() if lines == ["yes"] else Comparison(lines[1], lines[2])


def covers(
    lock: Requirements, requirements: Requirements, limit: int = LIMIT, *, assume: Assumption = None, nodes: Most = USUAL,
    clauses: Most = USUAL, cases: Most = USUAL,
) -> Covering:  # fmt: skip
    """Whether a lock requires whatever requirements do, whatever the truth of their markers is, and if not, where it
    first doesn't, and by which lines of the requirements.

    It has to require each package that they require, with at least their extras, and only points of versions that all
    their ranges have: `torch==2.0+cu118` doesn't cover `torch==2.0`, whose range has no point with a local part. What it
    requires besides makes no difference, and neither does whether a specifier names a pre-release. Lists that require
    the same, as `same` says, cover each other. Raises `InvalidInput` for what `same` refuses: a list that is refused, the
    first line that can't be compared, as one with a URL or with `===`, and a package with more cases than `limit`.

    `nodes`, `clauses` and `cases` are bounds as those of `same`, and `assume` is a marker as there.

    >>> bool(covers("foo[a,b]==1.2\\nbar==1", "foo[b]>=1"))
    True
    >>> covers("foo==1.2 ; os_name == 'nt'", "foo>=1")
    Covering(package='foo', place="os_name != 'nt'", lines=(1,))
    >>> bool(covers("foo==1.2 ; os_name == 'nt'", "foo>=1", assume="os_name == 'nt'"))
    True
    """
    call, assumed = _assumed(assume, _native.covers, _native.covers_where)
    inputs = _asking_input(lock, "lock"), _asking_input(requirements), *assumed
    numbers = _checked(limit), most_nodes(nodes), most_clauses(clauses), most_cases(cases)
    lines = _native.lines_of(answered(call, *inputs, numbers=numbers))
    if lines == ["yes"]:
        return Covering()
    found, listing = tuple(map(int, lines[3].split(","))), inputs[1].listing
    places = () if listing is None else tuple(str(listing.place(at).beside(listing.path)) for at in found)
    return Covering(lines[1], lines[2], found, places)


def conflicts(
    requirements: Requirements, limit: int = LIMIT, *, assume: Assumption = None, nodes: Most = USUAL, cases: Most = USUAL
) -> List[Conflict]:
    """The lines of a list that contradict each other when they apply together: their version ranges have no
    point in common.

    No plain version, one without a local part that is no post-release, is accepted by all lines of a
    conflict. Other versions may be: `torch==2.0+cu118` and `torch<=2.0` are a conflict, and both accept
    2.0+cu118. Raises `InvalidInput` for a list that is refused, for the first package by name with more
    cases than `limit`, and beyond the bounds `nodes` and `cases`, as `matrix` does. `assume` is a marker, as that of `same`.

    >>> lines = ["numpy>=1.26", "numpy<1.26 ; sys_platform == 'win32'"]
    >>> conflicts(lines)
    [Conflict(name='numpy', lines=(1, 2), names_prerelease=False)]
    >>> conflicts(lines, assume="sys_platform == 'linux'")
    []
    """
    call, assumed = _assumed(assume, _native.conflicts, _native.conflicts_where)
    given = requirements_input(requirements)
    numbers = _checked(limit), most_nodes(nodes), most_cases(cases)
    found = []
    for line in _native.lines_of(answered(call, given, *assumed, numbers=numbers)):
        name, lines, *pre = line.split(" ")
        found.append(Conflict(name, tuple(map(int, lines.split(","))), bool(pre)))
    return found if given.listing is None else _placed(found, given.listing)


def _placed(found: List[Conflict], listing: Listing) -> List[Conflict]:
    """Conflicts with the places of their lines, but for those of constraints alone, which ask for nothing."""
    asking = (it for it in found if not all(map(listing.is_constraint, it.lines)))
    return [
        Conflict(it.name, it.lines, it.names_prerelease, tuple(listing.place(at).beside(listing.path) for at in it.lines))
        for it in asking
    ]  # fmt: skip


def normal(requirements: Requirements, *, nodes: Most = USUAL, clauses: Most = USUAL) -> List[str]:
    """The lines of a list in one normal form, without those that never apply. Raises `InvalidInput` for a
    list that is refused, for the first line that has no normal form, and beyond the bounds `nodes` and `clauses`, as
    `same` does; `clauses` counts those of each line.

    >>> normal("Foo_Bar [b , a] < 2.0 , >= 1.16 ; python_version >= '3.8'")
    ["foo-bar[b,a]>=1.16,<2.0 ; python_full_version >= '3.8'"]
    """
    given = _asking_input(requirements)
    return _native.lines_of(answered(_native.normal, given, numbers=(most_nodes(nodes), most_clauses(clauses))))
