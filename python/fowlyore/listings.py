"""Lists that were read from files: their lines, where each came from, and what was left out.

What stands here reads nothing: the readers are `fowlyore.files` and the modules that it names.
"""

import re
from dataclasses import dataclass
from typing import AbstractSet, Dict, List, NamedTuple, Optional, Sequence, Tuple

from . import _native
from .conditions import truth

# What an assumption about the interpreter's version is called, and one about an environment.
REQUIRES_PYTHON, ENVIRONMENTS = "requires-python", "environments"
# The bytes of the longest input that the library reads.
LONGEST = 16_777_216
# Where the comment of a line begins.
COMMENT = re.compile(r"(?:^|\s)#")

__all__ = ["Assumption", "LeftOut", "ListedLine", "Listing", "Place"]


@dataclass(frozen=True)
class Place:
    """A place in a file: a line, from 1, or an entry of a table, whose index is from 0; or the file as a
    whole.

    >>> print(Place("requirements.txt", 3), Place("pyproject.toml", entry="project.dependencies[0]"), sep=", ")
    requirements.txt: line 3, pyproject.toml: project.dependencies[0]
    """

    path: str
    line: Optional[int] = None
    entry: Optional[str] = None

    @property
    def within(self) -> str:
        """The place in the file, without the file's name."""
        return self.entry or ("" if self.line is None else f"line {self.line}")

    def __str__(self) -> str:
        return f"{self.path}: {self.within}" if self.within else self.path

    def beside(self, path: str) -> str:
        """The place in a few characters, without the path if that is this one."""
        if self.path == path and self.within:
            return self.entry or str(self.line)
        return f"{self.path}:{self.entry or self.line}" if self.within else self.path


class Located(NamedTuple):
    """A part of a line of a file, or of a text in a table: `text[start:end]`."""

    place: Place
    text: str
    start: int
    end: int


@dataclass(frozen=True)
class ListedLine:
    """A line of a list: its text, where it came from, and whether it is a constraint, which asks for nothing
    by itself."""

    text: str
    place: Place
    is_constraint: bool = False


@dataclass(frozen=True)
class LeftOut:
    """What was left out, where it stands, and why.

    >>> print(LeftOut("--pre", Place("requirements.txt", 2), "an option of pip"))
    requirements.txt: line 2: left out: --pre (an option of pip)
    """

    what: str
    place: Place
    why: str

    def __str__(self) -> str:
        return f"{self.place}: left out: {self.what} ({self.why})"


@dataclass(frozen=True)
class Assumption:
    """What a file says of the environments that it is meant for: `requires-python` and specifiers, or
    `environments` and a marker. Where it says it of one line alone, `line` is that line's text."""

    what: str
    text: str
    place: Place
    line: str = ""

    def __str__(self) -> str:
        return f"{self.place}: {self.text} is assumed"


class Source:
    """What lines came from, which tells of each by its key where it stands."""

    def place(self, key: int) -> Place:
        """Where the line begins."""
        raise NotImplementedError

    def located(self, key: int, start: int, end: int) -> Located:
        """Where a part of the line stands, which is given in characters of what is handed over."""
        raise NotImplementedError

    def given(self, key: int, start: int, end: int) -> str:
        """A part of the line as it was written, without the values of variables."""
        at = self.located(key, start, end)
        return at.text[at.start : at.end]


Origin = Tuple[Source, int]


class Entries(Source):
    """Texts of tables and fields, each with its place, as they were given."""

    def __init__(self) -> None:
        self._given: List[Tuple[Place, str, Optional[int]]] = []

    def add(self, place: Place, given: str, bracket: Optional[int] = None) -> Origin:
        """One more text; `bracket` is where a bracket was put in."""
        self._given.append((place, given, bracket))
        return self, len(self._given) - 1

    def place(self, key: int) -> Place:
        return self._given[key][0]

    def located(self, key: int, start: int, end: int) -> Located:
        place, given, bracket = self._given[key]
        return Located(place, given, _before(start, bracket, given), _before(end, bracket, given))


class _Narrowed(Source):
    """Lines of another source with a condition added."""

    def __init__(self, origin: Origin, given: str, bracket: Optional[int]) -> None:
        self._origin, self._given, self._bracket = origin, given, bracket

    def place(self, key: int) -> Place:
        return self._origin[0].place(self._origin[1])

    def located(self, key: int, start: int, end: int) -> Located:
        source, inner = self._origin
        return source.located(inner, *self._narrow(start, end))

    def given(self, key: int, start: int, end: int) -> str:
        source, inner = self._origin
        return source.given(inner, *self._narrow(start, end))

    def _narrow(self, *places: int) -> Tuple[int, ...]:
        return tuple(_before(it, self._bracket, self._given) for it in places)


def _before(at: int, bracket: Optional[int], given: str) -> int:
    """A place in a text before a bracket was put in, and something added at the end."""
    return min(at - 1 if bracket is not None and at > bracket else at, len(given))


def narrowed(text: str, condition: str) -> Tuple[str, Optional[int]]:
    """A requirement that applies where it did and a condition holds, and where the bracket before its marker
    stands. The library says where the marker is, and raises `Fault` for what is no requirement.

    >>> narrowed("foo>=1 ; os_name == 'nt' or os_name == 'x'", "extra == 'a'")
    ("foo>=1 ;( os_name == 'nt' or os_name == 'x') and extra == 'a'", 8)
    >>> narrowed("foo>=1", "extra == 'a'")
    ("foo>=1 ; extra == 'a'", None)
    """
    marker = _native.requirement(_native.encoded(text)).marker
    if marker is None:
        return f"{text} ; {condition}", None
    front = text[: len(text) - len(marker)]
    return f"{front}({marker}) and {condition}", len(front)


def _without_comment(line: str) -> str:
    """A line of a plain list without its comment and the white space around."""
    return (COMMENT.split(line, maxsplit=1)[0] if "#" in line else line).strip()


class Listing:
    """A list that `read` has read. The functions on lists take it as their requirements.

    `path` is the file that was named. `left_out` tells what isn't among the lines, `assumed` what the file
    says of its environments, and `provided_extras` the extras that it has, by their normal names, or None
    where its kind has none.
    """

    def __init__(
        self,
        path: str,
        texts: Sequence[str],
        origins: Sequence[Origin],
        *,
        constraints: AbstractSet[int] = frozenset(),
        left_out: Sequence[LeftOut] = (),
        assumed: Sequence[Assumption] = (),
        extras: Optional[Sequence[str]] = None,
        plain: Optional[bytes] = None,
    ) -> None:
        self.path = path
        self.left_out = tuple(left_out)
        self.assumed = tuple(assumed)
        self.provided_extras = None if extras is None else tuple(extras)
        self._texts, self._origins, self._constraints = texts, origins, constraints
        self._plain = plain

    @classmethod
    def of_plain(cls, path: str, data: bytes) -> "Listing":
        """A plain list, whose bytes the library reads as they stand."""
        return cls(path, (), (), plain=data)

    def __repr__(self) -> str:
        return f"<Listing({self.path!r})>"

    def _values(self) -> Tuple[object, ...]:
        return self.path, self.text, tuple(self.lines), self.left_out, self.assumed, self.provided_extras

    def __eq__(self, other: object) -> bool:
        if not isinstance(other, Listing):
            return NotImplemented
        return self._values() == other._values()

    def __hash__(self) -> int:
        return hash(self._values())

    @property
    def is_plain(self) -> bool:
        """Whether nothing but requirements, comments and blank lines is in the file, so that its lines are
        the list's."""
        return self._plain is not None

    @property
    def has_constraints(self) -> bool:
        """Whether some line is a constraint."""
        return bool(self._constraints)

    @property
    def text(self) -> bytes:
        """What the library reads: all lines, constraints too."""
        if self._plain is not None:
            return self._plain
        return _native.encoded("".join([f"{it}\n" for it in self._texts]))

    @property
    def asking(self) -> bytes:
        """The lines that aren't constraints."""
        texts = (it for at, it in enumerate(self._texts) if at not in self._constraints)
        return self.text if self._plain is not None else _native.encoded("".join([f"{it}\n" for it in texts]))

    @property
    def lines(self) -> List[ListedLine]:
        """The requirements, without comments and the white space around them. The number of one's place is that of its line
        in the file."""
        if self._plain is not None:
            bare = map(_without_comment, self._plain.decode("utf-8", "replace").split("\n"))
            return [ListedLine(text, Place(self.path, number)) for number, text in enumerate(bare, 1) if text]
        places = (source.place(key) for source, key in self._origins)
        return [
            ListedLine(text, place, at in self._constraints)
            for at, (text, place) in enumerate(zip(self._texts, places))
        ]  # fmt: skip

    def place(self, number: int) -> Place:
        """Where the line of a number, from 1, came from."""
        if self._plain is not None:
            return Place(self.path, number)
        source, key = self._origins[number - 1]
        return source.place(key)

    def is_constraint(self, number: int) -> bool:
        """Whether the line of a number, from 1, is a constraint."""
        return number - 1 in self._constraints

    def located(self, number: int, start: int, end: int) -> Located:
        """Where a part of the line of a number came from, for a list that isn't plain."""
        source, key = self._origins[number - 1]
        return source.located(key, start, end)

    def given(self, number: int, start: int, end: int) -> str:
        """A part of the line of a number as it was written, without the values of variables, for a list that isn't plain."""
        source, key = self._origins[number - 1]
        return source.given(key, start, end)

    def without_constraints(self) -> "Listing":
        """A list that asks for the same without constraints. One on a package for which some line asks
        everywhere is a line as any other, one on a package for which no line asks goes, and all others apply
        where some line asks.

        It raises `TooLong` where markers would have to be repeated until the list is longer than any may be.
        """
        if not self._constraints:
            return self
        asked = _Asked()
        for at, text in enumerate(self._texts):
            if at not in self._constraints:
                asked.add(text)
        texts: List[str] = []
        origins: List[Origin] = []
        size = 0
        for at, (text, origin) in enumerate(zip(self._texts, self._origins)):
            applying = (text, origin) if at not in self._constraints else asked.applying(text, origin)
            if applying is not None:
                texts.append(applying[0])
                origins.append(applying[1])
                size += len(applying[0])
            if size > LONGEST:
                raise TooLong(origin[0].place(origin[1]))
        return Listing(self.path, texts, origins, left_out=self.left_out, assumed=self.assumed, extras=self.provided_extras)


class TooLong(ValueError):
    """A list without constraints would be too long: `place` tells from where on, and `why` for what."""

    def __init__(self, place: Place) -> None:
        self.place = place
        self.why = "with the markers of what it constrains the list is too long"
        super().__init__(f"{place}: {self.why}")


class _Asked:
    """The conditions under which lines ask for each package."""

    def __init__(self) -> None:
        # (by normal names: the markers, each once, or None where some line always applies)
        self._markers: Dict[str, Optional[Dict[str, None]]] = {}

    def add(self, text: str) -> None:
        """Takes in a line. One that can't be read is left to the library, which refuses it."""
        try:
            parts = _native.requirement(_native.encoded(text))
            always = parts.marker is None or truth(parts.marker) == b"1"
        except _native.Fault:
            return
        markers = self._markers.setdefault(parts.name, {})
        if always or parts.marker is None:
            self._markers[parts.name] = None
        elif markers is not None:
            markers[parts.marker] = None

    def applying(self, text: str, origin: Origin) -> Optional[Tuple[str, Origin]]:
        """A constraint as a line that applies where some line asks for its package, or nothing where none
        does."""
        try:
            name = _native.requirement(_native.encoded(text)).name
        except _native.Fault:
            return text, origin
        if name not in self._markers:
            return None
        markers = self._markers[name]
        if markers is None:
            return text, origin
        joined, bracket = narrowed(text, f"({' or '.join(f'({it})' for it in markers)})")
        return joined, (_Narrowed(origin, text, bracket), 0)
