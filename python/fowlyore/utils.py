"""Names of packages, texts of versions, and what the names of wheels and source archives say (PEP 503, PEP
427, PEP 625).

What a name is, and what a version is, is the library's answer."""

import itertools
import re
from typing import Dict, FrozenSet, List, NamedTuple, NewType, Tuple, Type, Union

from . import _native
from ._cached import keep
from .errors import Kind, Refused
from .version import InvalidVersion, Version

__all__ = [
    "BuildTag", "InvalidName", "InvalidSdistFilename", "InvalidWheelFilename", "NormalizedName", "Tag",
    "canonicalize_name", "canonicalize_version", "is_normalized_name", "parse_sdist_filename",
    "parse_wheel_filename",
]  # fmt: skip

# A requirement of these characters alone is a name.
_NAME = re.compile(r"[A-Za-z0-9._-]+")
_BUILD = re.compile(r"([0-9]+)(.*)", re.DOTALL)
# What a name has to be (PEP 508, Names).
_WANTED = "a name has ASCII letters, digits, `-`, `_` and `.`, and begins and ends with a letter or digit"

BuildTag = Union[Tuple[()], Tuple[int, str]]
NormalizedName = NewType("NormalizedName", str)


class InvalidName(Refused):
    """A text is not a name.

    >>> canonicalize_name("-foo", validate=True)
    Traceback (most recent call last):
    fowlyore.utils.InvalidName: Invalid name: '-foo'...
    """


class InvalidWheelFilename(Refused):
    """A text is not the name of a wheel.

    >>> parse_wheel_filename("foo-1.0.whl")
    Traceback (most recent call last):
    fowlyore.utils.InvalidWheelFilename: Invalid wheel filename: 'foo-1.0.whl'...
    """


class InvalidSdistFilename(Refused):
    """A text is not the name of a source archive.

    >>> parse_sdist_filename("foo-1.0.tar.bz2")
    Traceback (most recent call last):
    fowlyore.utils.InvalidSdistFilename: Invalid sdist filename: 'foo-1.0.tar.bz2'...
    """


_KINDS = {InvalidWheelFilename: "wheel filename", InvalidSdistFilename: "sdist filename"}


class Tag(NamedTuple):
    """A tag of a wheel (PEP 425), in lower case, with the attributes that packaging's have. It is no
    `packaging.tags.Tag`: its text is what it has in common with one.

    >>> print(Tag("py3", "none", "any"))
    py3-none-any
    """

    interpreter: str
    abi: str
    platform: str

    def __str__(self) -> str:
        return "-".join(self)


# What was found for names, and for the tags of wheels; and how many of each are kept.
_kept_names: Dict[str, str] = {}
_kept_tags: Dict[Tuple[str, ...], FrozenSet[Tag]] = {}
_MOST_KEPT = 4096


def normal_name(name: str) -> str:
    """A name's normal form, or an empty text if it is not a name."""
    # (a text that has a class of its own may be equal to others)
    normal = _kept_names.get(name) if type(name) is str else None
    if normal is None:
        normal = _read_name(name)
        if type(name) is str:
            keep(_kept_names, name, normal, _MOST_KEPT, len(name))
    return normal


def _read_name(name: str) -> str:
    if not _NAME.fullmatch(name):
        return ""
    try:
        return _native.requirement(str.encode(name)).name
    except _native.Fault:
        return ""


def canonicalize_name(name: str, *, validate: bool = False) -> NormalizedName:
    """The normal form of the name of a package or of an extra (PEP 503). Of a text that is not a name it is
    the text in lower case, with a `-` for each run of `-`, `_` and `.`; or, if `validate` is true,
    `InvalidName` is raised.

    >>> canonicalize_name("Oslo._Concurrency"), canonicalize_name("_Foo")
    ('oslo-concurrency', '-foo')
    """
    normal = normal_name(name)
    if not normal and validate:
        raise InvalidName(f"Invalid name: {name!r}: {_WANTED}", text=name, line=1)
    return NormalizedName(normal or re.sub(r"[-_.]+", "-", name).lower())


def is_normalized_name(name: str) -> bool:
    """Whether a text is the normal form of a name.

    >>> is_normalized_name("oslo-concurrency"), is_normalized_name("Oslo"), is_normalized_name("a--b")
    (True, False, False)
    """
    normal = normal_name(name)
    # (a text that has a class of its own may be equal to others)
    return normal != "" and normal == str.__str__(name)


def canonicalize_version(version: Union[Version, str], *, strip_trailing_zero: bool = True) -> str:
    """The normal text of a version (PEP 440, Normalization), without the zeros at the end of its release
    unless `strip_trailing_zero` is false. A text that is no version is returned as it is.

    >>> canonicalize_version("1.0.0-RC1"), canonicalize_version("1.0.0", strip_trailing_zero=False)
    ('1rc1', '1.0.0')
    >>> canonicalize_version("0.0"), canonicalize_version("french toast")
    ('0', 'french toast')
    """
    try:
        made = version if isinstance(version, Version) else Version(version)
    except InvalidVersion:
        return version if isinstance(version, str) else str(version)
    # (a class of its own may print something else)
    normal = Version.__str__(made)
    if not strip_trailing_zero:
        return normal
    base = made.base_version
    numbers = base.split(".")
    while numbers[-1] == "0" and len(numbers) > 1:
        numbers.pop()
    return ".".join(numbers) + normal[len(base) :]


def parse_wheel_filename(
    filename: str, *, validate_order: bool = False
) -> Tuple[NormalizedName, Version, BuildTag, FrozenSet[Tag]]:
    """What the name of a wheel says (PEP 427): the normal form of its package's name, its version, its build
    tag, and its tags. The build tag is `()` if there is none, and otherwise the number at its front and the
    text after that.

    The tags are the texts between `-` and `.`: they aren't compared with those that interpreters have, which
    is up to packaging.tags. If `validate_order` is true, those of one set have to be sorted (PEP 425). Raises
    `InvalidWheelFilename` for a text that is not the name of a wheel.

    >>> name, version, build, tags = parse_wheel_filename("Foo_Bar-1.0-2b-py2.py3-none-any.whl")
    >>> name, version, build, sorted(map(str, tags))
    ('foo-bar', <Version('1.0')>, (2, 'b'), ['py2-none-any', 'py3-none-any'])
    """
    filename = _text_of(filename)
    if not filename.endswith(".whl"):
        raise _refused(InvalidWheelFilename, filename, "it doesn't end in `.whl`", len(filename))
    parts = filename[: -len(".whl")].split("-")
    if len(parts) not in (5, 6):
        why = f"5 parts with `-` between them are wanted, or 6 with a build tag, not {len(parts)}"
        raise _refused(InvalidWheelFilename, filename, why)
    if "__" in parts[0]:
        why = "a name has one `_` in place of a run of `-`, `_` and `.`"
        raise _refused(InvalidWheelFilename, filename, why, 0, parts[0])
    name, version = _named(InvalidWheelFilename, filename, parts[0], parts[1])
    build = _build_of(filename, parts)
    if validate_order and any(it != sorted(it) for it in (part.split(".") for part in parts[-3:])):
        tags = "-".join(parts[-3:])
        start = len(filename) - len(".whl") - len(tags)
        raise _refused(InvalidWheelFilename, filename, "its tags are not sorted", start, tags)
    return name, version, build, _tags_of(*parts[-3:])


def _tags_of(*parts: str) -> FrozenSet[Tag]:
    """Each tag that has a text of each of three parts, between whose texts are `.`."""
    tags = _kept_tags.get(parts)
    if tags is None:
        lowered = (part.lower().split(".") for part in parts)
        tags = frozenset(itertools.starmap(Tag, itertools.product(*lowered)))
        keep(_kept_tags, parts, tags, _MOST_KEPT, sum(map(len, parts)) * len(tags))
    return tags


def _build_of(filename: str, parts: List[str]) -> BuildTag:
    """The build tag of a wheel, whose name has these parts."""
    if len(parts) == 5:
        return ()
    found, why = _BUILD.fullmatch(parts[2]), "a build tag begins with a digit"
    if found is not None:
        try:
            return int(found[1]), found[2]
        except ValueError as error:  # of too many digits
            why = str(error)
    start = len(parts[0]) + len(parts[1]) + 2
    raise _refused(InvalidWheelFilename, filename, why, start, parts[2])


def parse_sdist_filename(filename: str) -> Tuple[NormalizedName, Version]:
    """What the name of a source archive says (PEP 625), which ends in `.tar.gz` or `.zip`: the normal form of
    its package's name, and its version, which follows the last `-`. Raises `InvalidSdistFilename` for a text
    that is not the name of a source archive.

    >>> parse_sdist_filename("Foo_Bar-1.0.tar.gz")
    ('foo-bar', <Version('1.0')>)
    """
    filename = _text_of(filename)
    if filename.endswith(".tar.gz"):
        front = filename[: -len(".tar.gz")]
    elif filename.endswith(".zip"):
        front = filename[: -len(".zip")]
    else:
        raise _refused(InvalidSdistFilename, filename, "it doesn't end in `.tar.gz` or `.zip`", len(filename))
    name, dash, version = front.rpartition("-")
    if not dash:
        raise _refused(InvalidSdistFilename, filename, "a `-` and a version don't follow a name")
    return _named(InvalidSdistFilename, filename, name, version)


def _text_of(filename: object) -> str:
    """The characters of a file's name, also of one that has a class of its own."""
    if not isinstance(filename, str):
        raise TypeError(f"the name of a file is a str, not {type(filename).__name__}")
    return str.__str__(filename)


def _named(kind: Type[Kind], filename: str, name: str, version: str) -> Tuple[NormalizedName, Version]:
    """The name and the version at the front of a filename, with a `-` between them."""
    normal = normal_name(name)
    if not normal:
        raise _refused(kind, filename, _WANTED, 0, name)
    try:
        return NormalizedName(normal), Version(version)
    except InvalidVersion as error:
        raise _refused(kind, filename, error.message, len(name) + 1, version) from None


def _refused(kind: Type[Kind], filename: str, why: str, start: int = 0, part: str = "") -> Kind:
    """The error for the name of a file: the part at fault and where it starts, or the place at which
    something is missing, or the whole name."""
    message = f"Invalid {_KINDS[kind]}: {filename!r}: {why}"
    end = start + len(part) if start or part else len(filename)
    return kind(message, text=filename, line=1, start=start, end=end)
