"""What distributions say that they require: core metadata in wheels, source archives, folders and what is
installed."""

import contextlib
import importlib.metadata
import os
import re
from typing import Any, Dict, Iterator, List, NamedTuple, NoReturn, Optional, Tuple

from . import _native
from .listings import REQUIRES_PYTHON, LeftOut, Listing, Place
from .lists import InvalidInput, decoded, unread
from .projects import Lines, check_marker
from .utils import normal_name

__all__ = ["python_of", "read_archive", "read_distribution", "read_folder", "read_metadata", "read_some", "read_wheel"]

_FIELD = re.compile(r"([!-9;-~]+)[ \t]*:[ \t]*(.*)")
_DESCRIPTION = re.compile(rb"(?:\r\n|\r(?!\n)|\n){2}")
_END = re.compile("\r\n|\r|\n")
# The fields on which a file that isn't a wheel's may say no more than that the build tells them (PEP 643).
_OF_LISTS = ("requires-dist", "requires-python", "provides-extra")
# The files of a source archive that say what it requires.
_SOURCE = re.compile(r"(?:\./)?[^/]+/(?:PKG-INFO|(?:[^/]+/)*[^/]+\.egg-info/requires\.txt)")
_SECTION = re.compile(r"\[(.*)\]")
# The most bytes that are taken for metadata, as an input's.
_MOST = 16_777_216
# The first version of core metadata in which a source archive says what a wheel of it requires (PEP 643).
_SURE = (2, 2)


class _Field(NamedTuple):
    """A field: its name in lower case, its value, and its line."""

    name: str
    value: str
    line: int


def _refuse(path: str, why: str, line: Optional[int] = None) -> NoReturn:
    raise unread(Place(path, line), why)


def _fields(path: str, data: bytes) -> Iterator[_Field]:
    """The fields of core metadata, up to the empty line at which the description begins, whose encoding is
    not looked at. A line that begins with white space goes on with the field before it."""
    text = decoded(path, _DESCRIPTION.split(data, maxsplit=1)[0])
    name, parts, first = "", [""], 0
    for number, line in enumerate(_END.split(text), 1):
        if not line:
            break
        if line[0] in " \t" and first:
            parts.append(line.strip())
            continue
        found = _FIELD.fullmatch(line)
        if found is None:
            _refuse(path, "a field is wanted: a name, a colon and a value", number)
        if first:
            yield _Field(name, " ".join(parts).strip(), first)
        name, parts, first = found[1].lower(), [found[2]], number
    if first:
        yield _Field(name, " ".join(parts).strip(), first)


def read_metadata(path: str, data: bytes, requires: Optional[bytes] = None, is_source: bool = False) -> Listing:
    """The list of core metadata, which are its fields `Requires-Dist` (Core metadata specifications).
    `requires` is what a file `requires.txt` next to it has, which counts where no such field is there;
    `is_source` says that it is a source archive's. What is dynamic (PEP 643) is reported, but of a `METADATA`,
    which a build has made.

    Raises `InvalidInput` for what can't be read, by its line.

    >>> data = b"Metadata-Version: 2.1\\nName: foo\\nProvides-Extra: b\\nRequires-Dist: bar (>=1) ; extra == 'b'\\n"
    >>> read_metadata("METADATA", data).lines
    [ListedLine(text="bar (>=1) ; extra == 'b'", place=Place(path='METADATA', line=4, entry=None), is_constraint=False)]
    """
    lines = Lines(path)
    extras: List[str] = []
    told: Dict[str, str] = {}
    is_built = os.path.basename(path) == "METADATA"
    fields = [*_fields(path, data)]
    lines.own = next((normal_name(it.value) for it in fields if it.name == "name"), "")
    for it in fields:
        place = Place(path, it.line)
        told.setdefault(it.name, it.value)
        if it.name == "requires-dist":
            lines.add(place, it.value)
        elif it.name == "requires-python":
            _assume_python(lines, place, it.value)
        elif it.name == "provides-extra" and normal_name(it.value):
            extras.append(normal_name(it.value))
        elif it.name == "provides-extra":
            lines.left_out.append(LeftOut(it.value, place, "no name of an extra"))
        elif it.name == "dynamic" and it.value.lower() in _OF_LISTS and not is_built:
            lines.left_out.append(LeftOut(it.value, place, "what builds a wheel of it tells it"))
    if "name" not in told:
        _refuse(path, "there is no field Name, and so this is no core metadata")
    if is_source and _version(told.get("metadata-version", "")) < _SURE:
        why = "metadata before 2.2 doesn't say what a wheel of it requires"
        lines.left_out.append(LeftOut("what the build asks for", Place(path), why))
    if requires is not None and "requires-dist" not in told:
        extras += _add_sections(os.path.join(os.path.dirname(path), "requires.txt"), requires, lines)
    return lines.listing(list(dict.fromkeys(extras)))


def _assume_python(lines: Lines, place: Place, text: str) -> None:
    """Takes in the versions of Python that a field asks for. As pip does, it passes over what can't be
    read."""
    try:
        lines.assume_python(place, text)
    except InvalidInput:
        lines.left_out.append(LeftOut(f"{REQUIRES_PYTHON} {text}", place, "it can't be read"))


def _version(text: str) -> Tuple[int, ...]:
    return tuple(map(int, text.split("."))) if re.fullmatch(r"[0-9]{1,9}\.[0-9]{1,9}", text) else (0,)


def _add_sections(path: str, data: bytes, lines: Lines) -> List[str]:
    """Takes in the requirements of a `requires.txt`, of which a section `[EXTRA:MARKER]` has those that apply
    there. It gives the extras."""
    condition, extras = "", []
    for number, line in enumerate(decoded(path, data).splitlines(), 1):
        section = _SECTION.fullmatch(line.strip())
        if section is not None:
            extra, _, marker = section[1].partition(":")
            name = normal_name(extra)
            if extra and not name:
                _refuse(path, f"{extra!r} is no name", number)
            if marker:
                check_marker(Place(path, number), marker)
            extras += [name] if extra else []
            of_extra = f"extra == '{name}'" if extra else ""
            condition = " and ".join(it for it in (f"({marker})" if marker else "", of_extra) if it)
        elif line.strip():
            lines.add(Place(path, number), line.strip(), condition)
    return extras


def read_wheel(path: str) -> Listing:
    """The list of a wheel: that of the `METADATA` in its one folder `*.dist-info` (PEP 427, File contents).

    Raises `InvalidInput` for what can't be read, and `OSError` where the file can't be opened.
    """
    return read_metadata(*_of_wheel(path))


def _of_wheel(path: str) -> Tuple[str, bytes]:
    """Where the metadata of a wheel stand, and what they are."""
    import zipfile

    with open(path, "rb") as file, _refusing(path, "wheel"), zipfile.ZipFile(file) as wheel:
        names = [it for it in wheel.namelist() if re.fullmatch(r"[^/]+\.dist-info/METADATA", it)]
        name = _only(path, names, "METADATA")
        with wheel.open(name) as member:
            data = read_some(path, member)
    return f"{path}/{name}", data


def python_of(path: str) -> Optional[str]:
    """The `Requires-Python` of a wheel, or of a source archive `*.tar.gz`, and nothing where it has none. Of
    an archive only the front up to its `PKG-INFO` is read.

    Raises `InvalidInput` for what can't be read, and `OSError` where the file can't be opened.
    """
    where, data = _of_wheel(path) if path.endswith(".whl") else _front_of_archive(path)
    return next((it.value for it in _fields(where, data) if it.name == REQUIRES_PYTHON), None)


def _front_of_archive(path: str) -> Tuple[str, bytes]:
    import tarfile

    with open(path, "rb") as file, _refusing(path, "source archive"), tarfile.open(fileobj=file, mode="r:gz") as archive:
        for member in archive:
            if member.isfile() and re.fullmatch(r"(?:\./)?[^/]+/PKG-INFO", member.name):
                content = archive.extractfile(member)
                return f"{path}/{member.name}", b"" if content is None else read_some(path, content)
    _refuse(path, "there is no file PKG-INFO")


@contextlib.contextmanager
def _refusing(path: str, what: str) -> Iterator[None]:
    """Refuses an archive of which the standard library can't read what is wanted."""
    try:
        yield
    except InvalidInput:
        raise
    except _faults_of_archives() as error:
        _refuse(path, f"no {what} that can be read: {error}")


def _faults_of_archives() -> Tuple[Any, ...]:
    """What is raised where an archive, or what is compressed in it, can't be read."""
    import struct
    import tarfile
    import zipfile
    import zlib

    faults = (OSError, EOFError, ValueError, RuntimeError, LookupError, OverflowError)
    of_modules = (struct.error, tarfile.TarError, zipfile.BadZipFile, zlib.error)
    try:
        import lzma
    except ImportError:
        return (*faults, *of_modules)
    return (*faults, *of_modules, lzma.LZMAError)


def _only(path: str, names: List[str], what: str) -> str:
    if len(names) != 1:
        _refuse(path, f"there are {len(names)} files {what}, and one is wanted" if names else f"there is no file {what}")
    return names[0]


def read_archive(path: str) -> Listing:
    """The list of a source archive: that of the `PKG-INFO` in its one folder (PEP 625), and of a
    `requires.txt` in a folder `*.egg-info` where that names no requirement.

    Raises `InvalidInput` for what can't be read, and `OSError` where the file can't be opened.
    """
    import tarfile

    found: Dict[str, bytes] = {}
    first: Dict[str, str] = {}
    with open(path, "rb") as file, _refusing(path, "source archive"), tarfile.open(fileobj=file, mode="r:gz") as archive:
        for member in (it for it in archive if it.isfile() and _SOURCE.fullmatch(it.name)):
            # (where there are several of a kind, none is looked at)
            is_first = first.setdefault(os.path.basename(member.name), member.name) == member.name
            content = archive.extractfile(member) if is_first else None
            found[member.name] = b"" if content is None else read_some(path, content)
    name = _only(path, [it for it in found if it.endswith("/PKG-INFO")], "PKG-INFO")
    requires = [data for it, data in found.items() if it.endswith("/requires.txt")]
    return read_metadata(f"{path}/{name}", found[name], requires[0] if len(requires) == 1 else None, is_source=True)


def read_some(path: str, file: Any) -> bytes:
    """The bytes of metadata. What is too long for an input, or never ends, is refused."""
    data: bytes = file.read(_MOST + 1)
    if len(data) > _MOST:
        _refuse(path, f"metadata longer than {_MOST} bytes")
    return data


def read_folder(path: str) -> Listing:
    """The list of a folder `*.dist-info` or `*.egg-info`: that of its `METADATA` or `PKG-INFO`."""
    is_built = path.endswith(".dist-info")
    inner = os.path.join(path, "METADATA" if is_built else "PKG-INFO")
    with open(inner, "rb") as file:
        data = read_some(inner, file)
    return read_metadata(inner, data, None if is_built else _read_if_there(os.path.join(path, "requires.txt")))


def _read_if_there(path: str) -> Optional[bytes]:
    try:
        with open(path, "rb") as file:
            return read_some(path, file)
    except FileNotFoundError:
        return None


def read_distribution(distribution: importlib.metadata.Distribution) -> Listing:
    """The list of an installed distribution: that of its metadata, which are a `METADATA`, a `PKG-INFO`, or a
    file by itself.

    Raises `InvalidInput` for what can't be read.

    >>> isinstance(read_distribution(next(iter(importlib.metadata.distributions()))), Listing)
    True
    """
    path = str(getattr(distribution, "_path", "")) or "a distribution"
    of_wheel = _installed_text(distribution, path, "METADATA")
    if of_wheel:
        return read_metadata(os.path.join(path, "METADATA"), of_wheel)
    requires = _installed_text(distribution, path, "requires.txt")
    of_egg = _installed_text(distribution, path, "PKG-INFO")
    if of_egg:
        return read_metadata(os.path.join(path, "PKG-INFO"), of_egg, requires)
    return read_metadata(path, _installed_text(distribution, path, ""), requires)


def _installed_text(distribution: importlib.metadata.Distribution, path: str, name: str) -> bytes:
    """A file of an installed distribution, and nothing where there is none."""
    try:
        return _native.encoded(distribution.read_text(name) or "")
    except UnicodeDecodeError as error:
        _refuse(os.path.join(path, name), f"not UTF-8 at byte {error.start} of the file")
