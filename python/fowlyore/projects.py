"""What projects say in TOML: `pyproject.toml` (PEP 621, PEP 735) and lock files (PEP 751)."""

import json
import re
from typing import Any, Collection, Dict, FrozenSet, Iterator, List, NamedTuple, NoReturn, Optional, Sequence, Set, Tuple

from . import _native
from .conditions import ALWAYS, Misplaced, NotFollowed, OwnExtras, of_lock, truth
from .errors import characters
from .listings import (
    COMMENT, ENVIRONMENTS, REQUIRES_PYTHON, Assumption, Entries, LeftOut, Listing, Located, Origin, Place, narrowed,
)  # fmt: skip
from .lists import InvalidInput, decoded, refused, unread
from .specifiers import InvalidSpecifier, SpecifierSet
from .utils import normal_name
from .version import InvalidVersion, Version

__all__ = ["is_lock", "locked_versions", "read_lock", "read_project"]

_AT_LINE = re.compile(r" \(at line (\d+), column (\d+)\)\Z")
# The version of lock files that is read.
_LOCK_VERSION = re.compile(r"1\.[0-9]+")


class _Reference(NamedTuple):
    """A requirement by which a project asks for extras of its own: its place and text, those extras, and its
    marker, which is empty where there is none."""

    place: Place
    text: str
    extras: Tuple[str, ...]
    marker: str


class Lines:
    """The lines of a list while they are taken from tables or fields."""

    def __init__(self, path: str) -> None:
        self.path = path
        self.texts: List[str] = []
        self.origins: List[Origin] = []
        self.left_out: List[LeftOut] = []
        self.assumed: List[Assumption] = []
        # The normal name of the project, whose requirements of itself ask for extras of its own.
        self.own = ""
        self._references: List[_Reference] = []
        self._entries = Entries()

    def add(self, place: Place, given: str, condition: str = "") -> None:
        """Takes in a requirement, which applies under a condition. Raises `InvalidInput` for what a list's
        line would be read otherwise as: a comment, an empty text."""
        text = on_one_line(given)
        comment = COMMENT.search(text)
        if not text.strip():
            raise refused(Located(place, text, 0, len(text)), "an empty text is no requirement")
        if comment is not None:
            raise refused(Located(place, text, comment.end() - 1, len(text)), "a requirement has no comment")
        narrower, bracket = _narrowed(place, text, condition) if condition else (text, None)
        if self.own and "[" in text and self._refers(place, text, narrower):
            return
        self.texts.append(narrower)
        self.origins.append(self._entries.add(place, text, bracket))

    def assume_python(self, place: Place, text: str, line: str = "") -> None:
        """Takes in the versions of Python that a file asks for, or asks for where one line applies."""
        try:
            SpecifierSet(text)
        except InvalidSpecifier as error:
            start, end = (0, len(text)) if error.start is None or error.end is None else (error.start, error.end)
            raise refused(Located(place, text, start, end), error.message) from None
        self.assumed.append(Assumption(REQUIRES_PYTHON, text, place, line))

    def _refers(self, place: Place, text: str, narrower: str) -> bool:
        """Whether a requirement asks for extras of the project itself, which is kept in mind then."""
        try:
            parts = _native.requirement(_native.encoded(narrower))
        except _native.Fault:
            return False
        if parts.name != self.own or not parts.extras:
            return False
        self._references.append(_Reference(place, text, tuple(parts.extras.split(",")), parts.marker or ""))
        if parts.specifiers or parts.url:
            why = "of the project itself, of which only the extras are looked at"
            self.left_out.append(LeftOut(parts.specifiers or parts.url, place, why))
        return True

    def _follow(self, extras: Optional[Sequence[str]]) -> None:
        """Has the lines of an extra apply too where the project asks for that extra itself. Where that can't
        be said by markers, and of extras that aren't there, it is reported."""
        own = OwnExtras((extra, it.marker) for it in self._references for extra in it.extras)
        try:
            self.texts = [_followed(it, own) if "extra" in it else it for it in self.texts]
        except NotFollowed as error:
            why = f"of the project itself, which has to be asked for by name: {error}"
            self.left_out += (LeftOut(it.text, it.place, why) for it in self._references)
            return
        there = None if extras is None else frozenset(extras)
        for it in self._references:
            for extra in it.extras:
                if there is not None and extra not in there:
                    self.left_out.append(LeftOut(it.text, it.place, f"there is no extra {extra}"))

    def listing(self, extras: Optional[Sequence[str]] = None) -> Listing:
        """The list of the lines; `extras` are those that the file has."""
        if self._references:
            self._follow(extras)
        return Listing(self.path, self.texts, self.origins, left_out=self.left_out, assumed=self.assumed, extras=extras)


def on_one_line(text: str) -> str:
    """A text of TOML that may go over more than one line, on one, each character at its place."""
    return text.strip("\r\n").replace("\r\n", "  ").replace("\n", " ")


def _followed(text: str, own: OwnExtras) -> str:
    """A requirement with the marker in which the extras of a project are followed. What can't be read is left
    to the library, which refuses it."""
    try:
        marker = _native.requirement(_native.encoded(text)).marker
    except _native.Fault:
        return text
    if marker is None:
        return text
    followed = own.followed(marker)
    if followed == marker:
        return text
    front = text[: len(text) - len(marker)]
    is_bare = ALWAYS in followed and truth(followed) == b"1"
    return front.rstrip()[:-1].rstrip() if is_bare else f"{front}{followed}"


def _narrowed(place: Place, text: str, condition: str) -> Tuple[str, Optional[int]]:
    """What `narrowed` makes of a text that stands at a place, which is refused where it is no requirement."""
    try:
        return narrowed(text, condition)
    except _native.Fault as fault:
        raise _refused_part(place, text, fault) from None


def _refused_part(place: Place, text: str, fault: _native.Fault) -> InvalidInput:
    """The error of a text that stands at a place, and that the library refuses."""
    start, end = characters(_native.encoded(text), fault.start, fault.length)
    return refused(Located(place, text, start, end), fault.message.split("\n")[0])


class _Document:
    """A file of TOML that is some input, and how its faults are reported."""

    def __init__(self, path: str, data: bytes, input: str = "requirements") -> None:
        self.path, self.input = path, input
        self.tables = self._loaded(decoded(path, data, input))

    def refuse(self, where: str, why: str) -> NoReturn:
        raise unread(Place(self.path, entry=where or None), why, self.input)

    def _loaded(self, text: str) -> Dict[str, Any]:
        try:
            return _loads(text)
        except ImportError:
            self.refuse("", "to read TOML takes Python 3.11 or later, or the package tomli (pip install tomli)")
        except RecursionError:
            self.refuse("", "tables or arrays that are nested too deep")
        except ValueError as error:
            said = str(error)
        at = _AT_LINE.search(said)
        if at is None:
            self.refuse("", said)
        number, column = int(at[1]), int(at[2])
        line = text.replace("\r\n", "\n").split("\n")[number - 1]
        raise refused(Located(Place(self.path, number), line, column - 1, column), said[: at.start()], self.input)

    def member(self, table: Dict[str, Any], where: str, name: str, kind: Any, otherwise: Any = None) -> Any:
        """A member of a table, which has to be of a kind where it is there."""
        found = table.get(name, otherwise)
        if found is not None and not isinstance(found, kind):
            self.refuse(f"{where}.{name}" if where else name, f"{_KINDS[kind]} is wanted")
        return found

    def texts(self, given: Any, where: str) -> Iterator[Tuple[Place, str]]:
        """The texts of an array, each with its place."""
        if not isinstance(given, list):
            self.refuse(where, f"{_KINDS[list]} is wanted")
        for at, it in enumerate(given):
            if not isinstance(it, str):
                self.refuse(f"{where}[{at}]", f"{_KINDS[str]} is wanted")
            yield Place(self.path, entry=f"{where}[{at}]"), it

    def name(self, given: str, where: str) -> str:
        """The normal form of a name."""
        found = normal_name(given)
        if not found:
            self.refuse(where, f"{given!r} is no name")
        return found

    def names(self, key: str) -> Optional[List[str]]:
        """The normal forms of the names in an array, each once, or None where there is no array."""
        if key not in self.tables:
            return None
        named = (self.name(text, place.within) for place, text in self.texts(self.tables[key], key))
        return [*dict.fromkeys(named)]

    def group(self, name: str, where: str, there: Collection[str]) -> str:
        """The normal name of a dependency group, which has to be one of those that are there."""
        normal = normal_name(name)
        if normal not in there:
            listed = ", ".join(sorted(there)) or "none"
            self.refuse(where, f"there is no dependency group {name!r}; there is {listed}")
        return normal


_KINDS = {str: "a text", list: "an array", dict: "a table"}


def _loads(text: str) -> Dict[str, Any]:
    """The tables of a text of TOML."""
    import importlib

    try:
        toml: Any = importlib.import_module("tomllib")
    except ImportError:
        toml = importlib.import_module("tomli")
    found: Dict[str, Any] = toml.loads(text)
    return found


def is_lock(name: str) -> bool:
    """Whether a file of this name is a lock file (PEP 751, File name)."""
    return re.fullmatch(r"pylock(?:\.[^.]+)?\.toml", name) is not None


def read_project(path: str, data: bytes, groups: Sequence[str] = ()) -> Listing:
    """The list of a `pyproject.toml`: `project.dependencies`; those of each extra, which apply where it is
    asked for; and those of some dependency groups, with the groups that they include.

    Raises `InvalidInput` for what can't be read, by its table, and for groups that aren't there or include
    one another in a circle.
    """
    document = _Document(path, data)
    lines = Lines(path)
    project = document.member(document.tables, "", "project", dict)
    if project is None and not groups:
        document.refuse("", "there is no table project, and no dependency group is asked for")
    extras = [] if project is None else _add_project(document, lines, project)
    if groups:
        _Groups(document, lines).add(groups)
    return lines.listing(extras)


def _add_project(document: _Document, lines: Lines, project: Dict[str, Any]) -> List[str]:
    """Takes in the table of a project, and gives its extras."""
    for it in document.member(project, "project", "dynamic", list, []):
        if it in ("dependencies", "optional-dependencies", REQUIRES_PYTHON):
            place = Place(document.path, entry="project.dynamic")
            lines.left_out.append(LeftOut(f"project.{it}", place, "what builds the project tells it"))
    python = document.member(project, "project", REQUIRES_PYTHON, str)
    if python is not None:
        lines.assume_python(Place(document.path, entry=f"project.{REQUIRES_PYTHON}"), python)
    lines.own = normal_name(document.member(project, "project", "name", str, ""))
    for place, text in document.texts(project.get("dependencies", []), "project.dependencies"):
        lines.add(place, text)
    of_extras = document.member(project, "project", "optional-dependencies", dict, {})
    extras: Dict[str, None] = {}
    for name, given in of_extras.items():
        where = f"project.optional-dependencies.{_key(name)}"
        extra = document.name(name, where)
        if extra in extras:
            document.refuse(where, f"the extra {extra} is there twice")
        extras[extra] = None
        for place, text in document.texts(given, where):
            lines.add(place, text, f"extra == '{extra}'")
    lines.own = ""
    return [*extras]


def _key(name: str) -> str:
    """A key as TOML has it."""
    return name if re.fullmatch(r"[A-Za-z0-9_-]+", name) else json.dumps(name, ensure_ascii=False)


class _Groups:
    """The dependency groups of a file (PEP 735)."""

    def __init__(self, document: _Document, lines: Lines) -> None:
        self._document, self._lines = document, lines
        self._groups: Dict[str, Tuple[str, Any]] = {}
        self._done: Set[str] = set()
        for name, given in document.member(document.tables, "", "dependency-groups", dict, {}).items():
            where = f"dependency-groups.{_key(name)}"
            normal = document.name(name, where)
            if normal in self._groups:
                document.refuse(where, f"the group {normal} is there twice")
            self._groups[normal] = where, given

    def add(self, names: Sequence[str]) -> None:
        """Takes in the lines of some groups, and of those that they include, each once. What waits is kept in
        a list, so that groups may include one another as deep as they like."""
        for asked in names:
            first = self._document.group(asked, "", self._groups)
            # (the groups that are being read, each included by the one before it)
            within = {first: self._entries(first)}
            while within:
                last = next(reversed(within))
                included, where = next(within[last], ("", ""))
                if not included:
                    self._done.add(last)
                    del within[last]
                elif included in within:
                    self._refuse_circle([*within], included, where)
                elif included not in self._done:
                    within[included] = self._entries(included)

    def _refuse_circle(self, within: List[str], included: str, where: str) -> NoReturn:
        circle = " includes ".join([*within[within.index(included) :], included])
        self._document.refuse(where, f"a circle: {circle}")

    def _entries(self, name: str) -> Iterator[Tuple[str, str]]:
        """Takes in the requirements of a group, but where another one is included gives its name and the
        place."""
        if name in self._done:
            return
        where, given = self._groups[name]
        if not isinstance(given, list):
            self._document.refuse(where, f"{_KINDS[list]} is wanted")
        for at, it in enumerate(given):
            here = f"{where}[{at}]"
            if isinstance(it, str):
                self._lines.add(Place(self._document.path, entry=here), it)
            elif isinstance(it, dict) and list(it) == ["include-group"] and isinstance(it["include-group"], str):
                yield self._document.group(it["include-group"], here, self._groups), here
            else:
                self._document.refuse(here, "a text, or a table of include-group alone, is wanted")


def read_lock(path: str, data: bytes, groups: Sequence[str] = ()) -> Listing:
    """The list of a lock file (PEP 751): `NAME==VERSION` of each package, with its marker. In markers
    `'x' in extras` is `extra == 'x'`; dependency groups are those that are asked for, or else the file's default
    ones, and a package of which the marker holds nowhere with these isn't among the lines. A package without a
    version is left out.

    Raises `InvalidInput` for what can't be read, by its table.
    """
    document = _Document(path, data)
    lines = Lines(path)
    python = document.member(document.tables, "", REQUIRES_PYTHON, str)
    if python is not None:
        lines.assume_python(Place(path, entry=REQUIRES_PYTHON), python)
    for place, marker in document.texts(document.tables.get(ENVIRONMENTS, []), ENVIRONMENTS):
        check_marker(place, on_one_line(marker))
        lines.assumed.append(Assumption(ENVIRONMENTS, on_one_line(marker), place))
    asked = _groups_of_lock(document, groups)
    for where, package in _packages(document, lines):
        condition = _condition(document, where, package, asked)
        python = document.member(package, where, REQUIRES_PYTHON, str)
        if condition is None:
            continue
        text = f"{package['name']}=={package['version']}"
        lines.add(Place(path, entry=where), f"{text} ; {condition}" if condition else text)
        if python is not None:
            lines.assume_python(Place(path, entry=f"{where}.{REQUIRES_PYTHON}"), python, lines.texts[-1])
    return lines.listing(document.names("extras"))


def _groups_of_lock(document: _Document, groups: Sequence[str]) -> FrozenSet[str]:
    """The dependency groups of a lock file that are asked for, or else its default ones."""
    default = document.names("default-groups") or []
    there = [*default, *(document.names("dependency-groups") or [])]
    return frozenset(document.group(it, "", there) for it in groups) if groups else frozenset(default)


def _condition(document: _Document, where: str, package: Dict[str, Any], groups: FrozenSet[str]) -> Optional[str]:
    """The marker of a locked package as a list's line has one, empty where it has none or always holds, or
    None where with these groups it never does."""
    given = document.member(package, where, "marker", str)
    if given is None:
        return ""
    place, marker = Place(document.path, entry=f"{where}.marker"), on_one_line(given)
    try:
        placed, judged = of_lock(marker, groups)
    except Misplaced as error:
        raise refused(Located(place, marker, error.start, error.end), str(error)) from None
    check_marker(place, marker, placed)
    if "dependency_groups" not in marker:
        return judged
    return {b"1": "", b"0": None}.get(truth(judged), judged)


def locked_versions(path: str, data: bytes) -> Tuple[List[Tuple[str, str]], List[LeftOut]]:
    """Name and version of each package of a lock file, and what has no version."""
    document = _Document(path, data, "candidates")
    lines = Lines(path)
    return [(it["name"], it["version"]) for _, it in _packages(document, lines)], lines.left_out


def check_marker(place: Place, marker: str, placed: Optional[str] = None) -> None:
    """Refuses a text that is no marker. `placed` is what is read in its place, with each part where the text
    has it."""
    try:
        _native.marker_check(_native.encoded(placed or marker))
    except _native.Fault as fault:
        raise _refused_part(place, marker, fault) from None


def _packages(document: _Document, lines: Lines) -> Iterator[Tuple[str, Dict[str, Any]]]:
    """The packages of a lock file that have a version, each with its table."""
    said = document.member(document.tables, "", "lock-version", str)
    if said is None:
        document.refuse("", "there is no lock-version")
    if not _LOCK_VERSION.fullmatch(said):
        document.refuse("lock-version", f"{said!r} is not 1.0")
    for at, package in enumerate(document.member(document.tables, "", "packages", list, [])):
        where = f"packages[{at}]"
        if not isinstance(package, dict):
            document.refuse(where, f"{_KINDS[dict]} is wanted")
        name = document.member(package, where, "name", str)
        if name is None or not normal_name(name):
            document.refuse(where, "there is no name" if name is None else f"{name!r} is no name")
        version = document.member(package, where, "version", str)
        if version is None:
            lines.left_out.append(LeftOut(name, Place(document.path, entry=where), "there is no version"))
            continue
        try:
            Version(version)
        except InvalidVersion as error:
            document.refuse(f"{where}.version", error.message)
        yield where, package
