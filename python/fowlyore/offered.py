"""Candidates that files offer: a folder of wheels and source archives, the page of a package in an index, a
lock file."""

import itertools
import json
import math
import operator
import os
import re
from pathlib import Path
from typing import Any, Dict, Iterable, List, NoReturn, Optional, Tuple, Union

from .core_metadata import python_of
from .listings import LeftOut, Place
from .lists import InvalidInput, PathLike, decoded, read_whole, unread
from .progress import Progress
from .projects import is_lock, locked_versions
from .specifiers import InvalidSpecifier, SpecifierSet
from .utils import Tag, normal_name
from .version import Version, is_version

__all__ = ["read_candidates", "wheelhouse"]

# (PEP 427: name, version, perhaps a build tag, and three tags of what it runs on)
_WHEEL = re.compile(r"([^-]+)-([^-]+)(?:-[0-9][^-]*)?-([^-]+)-([^-]+)-([^-]+)\.whl")
_ARCHIVE = re.compile(r"(.+)\.(?:tar\.(?:gz|bz2|xz|lz|lzma)|zip|tgz|tbz|txz|tlz|tar)")
Candidate = Tuple[str, str]
LeftOuts = Optional[List[LeftOut]]


def _told(left_out: LeftOuts, what: str, place: Place, why: str) -> None:
    if left_out is not None:
        left_out.append(LeftOut(what, place, why))


class _Interpreter:
    """What candidates are wanted for: the version of an interpreter, and the tags of wheels that it can use.
    What isn't given is not looked at."""

    def __init__(self, python: Optional[str], tags: Optional[Iterable[object]]) -> None:
        self._release = None if python is None else Version(python).base_version
        self.python = None if python is None else str.__str__(python)
        each: Optional[Iterable[object]] = [tags] if isinstance(tags, (str, Tag)) else tags
        self._tags = None if each is None else frozenset(str.lower(it if isinstance(it, str) else str(it)) for it in each)
        self._answers: Dict[str, bool] = {}

    def has_tag_of(self, filename: str) -> bool:
        """Whether a file is no wheel, or one with a tag that the interpreter has."""
        found = _WHEEL.fullmatch(filename)
        if found is None or self._tags is None:
            return True
        sets = [it.lower().split(".") for it in found.group(3, 4, 5)]
        if math.prod(map(len, sets)) <= len(self._tags):
            return any("-".join(it) in self._tags for it in itertools.product(*sets))
        # (a name may have a thousand texts in each part)
        wanted = [frozenset(it) for it in sets]
        return any(all(map(operator.contains, wanted, it.split("-"))) for it in self._tags if it.count("-") == 2)

    def is_in(self, requires_python: str) -> bool:
        """Whether the interpreter is one that a file asks for; as pip does, by the numbers of its release,
        and where the file's text can't be read."""
        if self._release is None:
            return True
        if requires_python not in self._answers:
            try:
                self._answers[requires_python] = SpecifierSet(requires_python).contains(self._release)
            except InvalidSpecifier:
                self._answers[requires_python] = True
        return self._answers[requires_python]

    def why_not(self, filename: str, requires_python: Optional[str]) -> str:
        """Why a file isn't for the interpreter, or nothing where it is."""
        if not self.has_tag_of(filename):
            return "a wheel for other interpreters, by its tags"
        if requires_python is not None and not self.is_in(requires_python):
            return f"Python {self.python} is not in {requires_python}, which it asks for"
        return ""


def wheelhouse(
    folder: Union[str, PathLike],
    left_out: LeftOuts = None,
    *,
    python: Optional[str] = None,
    tags: Optional[Iterable[object]] = None,
) -> List[Candidate]:
    """Name and version of each wheel and source archive in a folder, by their files' names (PEP 427, PEP
    625), in the order of these. Of files that are no candidates each is added to `left_out`.

    `tags` are those of an interpreter, as `packaging.tags.sys_tags()` or their texts: wheels without any of
    these aren't candidates. `python` is its version: files of which the metadata ask for another one aren't,
    but other archives than `.tar.gz`, which are not looked into. Where one isn't given, it is not looked at.

    Raises `InvalidVersion` for a `python` that is no version, and `OSError` where the folder can't be read.

    >>> import pathlib, tempfile
    >>> folder = pathlib.Path(tempfile.mkdtemp())
    >>> for name in ("foo_bar-1.0-1-py3-none-any.whl", "foo_bar-1.1.tar.gz", "foo_bar-2-cp39-abi3-win32.whl", "notes.txt"):
    ...     (folder / name).touch()
    >>> wheelhouse(folder, tags=["cp39-abi3-linux_x86_64", "py3-none-any"])
    [('foo_bar', '1.0'), ('foo_bar', '1.1')]
    """
    path = str.__str__(os.fsdecode(folder))
    interpreter = _Interpreter(python, tags)
    found: Dict[Candidate, None] = {}
    names = sorted(os.listdir(path))
    with Progress(f"reading {path}", len(names)) as progress:
        for name in names:
            progress.step()
            candidate, why = _candidate_of(name)
            why = why or interpreter.why_not(name, None)
            if candidate is not None and not why and python is not None:
                why = interpreter.why_not(name, _python_of(os.path.join(path, name), left_out))
            if candidate is None or why:
                _told(left_out, name, Place(path), why)
            else:
                found[candidate] = None
    return list(found)


def _python_of(path: str, left_out: LeftOuts) -> Optional[str]:
    """The `Requires-Python` of a file, or nothing where it has none. Where it can't be read that is reported."""
    if not path.endswith((".whl", ".tar.gz")):
        return None
    try:
        return python_of(path)
    except InvalidInput as error:
        _told(left_out, "Requires-Python", Place(path), error.message.partition(": ")[2])
    except OSError as error:
        _told(left_out, "Requires-Python", Place(path), error.strerror or str(error))
    return None


def _candidate_of(filename: str) -> Tuple[Optional[Candidate], str]:
    """The name and the version that a file's name says, or why it says none."""
    wheel, archive = _WHEEL.fullmatch(filename), _ARCHIVE.fullmatch(filename)
    if wheel is not None:
        name, version = wheel[1], wheel[2].replace("_", "-")
        found = [(name, version)] if normal_name(name) and is_version(version) else []
    elif archive is not None:
        found = _splits(archive[1])
    else:
        return None, "no wheel and no source archive"
    if len(found) == 1:
        return found[0], ""
    return None, "its name says no name and version" if not found else "its name can be read in more than one way"


def _splits(text: str) -> List[Candidate]:
    """The ways in which a text is a name, a `-` and a version."""
    # (after the name a version seldom has more)
    dashes = [it.start() for it in re.finditer("-", text)][-8:]
    pairs = ((text[:at], text[at + 1 :]) for at in dashes)
    return [(name, version) for name, version in pairs if is_version(version) and normal_name(name)]


def read_candidates(
    path: Union[str, PathLike],
    left_out: LeftOuts = None,
    *,
    python: Optional[str] = None,
    tags: Optional[Iterable[object]] = None,
) -> Union[List[Candidate], Path]:
    """The candidates that a file has, for the functions on lists: of a folder those of `wheelhouse`, of
    `pylock.toml` or `pylock.NAME.toml` its packages (PEP 751), of a name that ends in `.json` those of a page
    of a package index (PEP 691), or of an array of pages, of which `python` and `tags` leave out files as in
    a folder. Any other file is a list of candidates, and its path is the answer. What is left out is added to
    `left_out`.

    Raises `InvalidInput` for what can't be read, by its table or member, `InvalidVersion` for a `python` that is
    no version, and `OSError` where the file can't be read.

    >>> import tempfile
    >>> path = Path(tempfile.mkdtemp(), "foo.json")
    >>> _ = path.write_text('{"name": "foo", "files": [{"filename": "foo-1.0.tar.gz"}]}')
    >>> read_candidates(path)
    [('foo', '1.0')]
    """
    name = str.__str__(os.fsdecode(path))
    if os.path.isdir(name):
        return wheelhouse(name, left_out, python=python, tags=tags)
    is_locked = is_lock(os.path.basename(name))
    if not is_locked and not name.endswith(".json"):
        return Path(name)
    with open(name, "rb") as file:
        data = read_whole(name, file, "candidates")
    if not is_locked:
        return _of_page(name, data, left_out, _Interpreter(python, tags))
    found, more = locked_versions(name, data)
    if left_out is not None:
        left_out += more
    return found


def _of_page(path: str, data: bytes, left_out: LeftOuts, interpreter: _Interpreter) -> List[Candidate]:
    """The candidates of a page, or of an array of pages."""
    text = decoded(path, data, "candidates")
    try:
        pages = json.loads(text)
    except (ValueError, RecursionError) as error:
        raise unread(Place(path), f"no JSON: {error}", "candidates") from None
    if not isinstance(pages, list):
        return _Page(path, "", pages, left_out, interpreter).candidates()
    each = (_Page(path, f"[{at}].", page, left_out, interpreter) for at, page in enumerate(pages))
    return [it for page in each for it in page.candidates()]


class _Page:
    """The page of a package; `front` stands before its members in what is reported."""

    def __init__(self, path: str, front: str, page: Any, left_out: LeftOuts, interpreter: _Interpreter) -> None:
        self.path, self.front, self.left_out, self.interpreter = path, front, left_out, interpreter
        if not isinstance(page, dict):
            self.refuse("", "an object is wanted, the page of a package in an index")
        self.page: Dict[str, Any] = page

    def refuse(self, member: str, why: str) -> NoReturn:
        where = self.front + member if member else self.front.rstrip(".")
        raise unread(Place(self.path, entry=where or None), why, "candidates")

    def tell(self, what: str, why: str, member: str) -> None:
        _told(self.left_out, what, Place(self.path, entry=self.front + member), why)

    def candidates(self) -> List[Candidate]:
        """Each version of which a file is there that isn't yanked; without files each that is listed."""
        name = self.member("name", str)
        normal = normal_name(name)
        if not normal:
            self.refuse("name", f"{name!r} is no name")
        meta = self.page.get("meta")
        said = meta.get("api-version", "1.0") if isinstance(meta, dict) else "1.0"
        if not str(said).startswith("1."):
            self.refuse("meta.api-version", f"{said!r} is not 1.0")
        if "files" not in self.page and "versions" not in self.page:
            self.refuse("", "there is no member files, and no member versions")
        listed = self.listed()
        if "files" not in self.page:
            return [(name, it) for it in listed]
        return [(name, it) for it in self.spelled(self.of_files(normal), listed)]

    def member(self, name: str, kind: Any, otherwise: Any = None) -> Any:
        found = self.page.get(name, otherwise)
        if not isinstance(found, kind):
            self.refuse(name, "it is missing, or of another form")
        return found

    def listed(self) -> List[str]:
        """The versions that the page lists."""
        found = []
        for at, it in enumerate(self.member("versions", list, [])):
            if not isinstance(it, str):
                self.refuse(f"versions[{at}]", "a text is wanted")
            if is_version(it):
                found.append(it)
            else:
                self.tell(it, "no version", f"versions[{at}]")
        return found

    def of_files(self, normal: str) -> List[str]:
        """The versions of the package's files that aren't yanked."""
        found: Dict[str, None] = {}
        for at, file in enumerate(self.member("files", list)):
            filename = file.get("filename") if isinstance(file, dict) else None
            if not isinstance(filename, str):
                self.refuse(f"files[{at}]", "an object with a filename is wanted")
            version, why = _version_of(filename, normal)
            asked = file.get("requires-python")
            if file.get("yanked"):
                why = "yanked"
            why = why or self.interpreter.why_not(filename, asked if isinstance(asked, str) else None)
            if version is None or why:
                self.tell(filename, why, f"files[{at}]")
            else:
                found[version] = None
        return list(found)

    def spelled(self, found: List[str], listed: List[str]) -> List[str]:
        """Versions of files, spelled as they are listed where they are."""
        spelled = {Version(it): it for it in reversed(listed)}
        of_files = {Version(it): it for it in reversed(found)}
        for version, text in reversed(list(spelled.items())):
            if version not in of_files:
                self.tell(text, "no file is left of it", "versions")
        return [spelled.get(version, text) for version, text in reversed(list(of_files.items()))]


def _version_of(filename: str, normal: str) -> Tuple[Optional[str], str]:
    """The version in a file's name, which has to be one of a package; that tells where the version of an
    archive begins."""
    archive = _ARCHIVE.fullmatch(filename)
    if archive is None:
        candidate, why = _candidate_of(filename)
    else:
        mine = [it for it in _splits(archive[1]) if normal_name(it[0]) == normal]
        candidate, why = (mine[0], "") if mine else (None, "its name says no version of the package")
    if candidate is None or normal_name(candidate[0]) != normal:
        return None, why or "a file of another package"
    return candidate[1], ""
