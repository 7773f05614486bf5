"""Versions (PEP 440)."""

import re
from typing import Any, NamedTuple, Optional, Tuple

from . import _native
from ._cached import of_its_own
from .errors import Refused, refusal, told

__all__ = ["InvalidVersion", "Version", "normalize_pre", "parse"]

_key_of, _SIZE = _native.version_key_call, _native.ROOM
_take_buffer, _give_buffer = _native.take_buffer, _native.give_buffer
# The parts of a version's normal text.
_PARTS = re.compile(
    r"(?:(\d+)!)?(\d+(?:\.\d+)*)(?:(a|b|rc)(\d+))?(?:\.post(\d+))?(?:\.dev(\d+))?(?:\+(.+))?", re.ASCII
)


class InvalidVersion(Refused):
    """A text is not a version.

    >>> Version("1.0 final")
    Traceback (most recent call last):
    fowlyore.version.InvalidVersion: Invalid version: '1.0 final'...
    """


class Parts(NamedTuple):
    """A version's parts."""

    epoch: int
    release: Tuple[int, ...]
    pre: Optional[Tuple[str, int]]
    post: Optional[int]
    dev: Optional[int]
    local: Optional[str]


def parse(version: str) -> "Version":
    """The version of a text. Raises `InvalidVersion` if it is not a version.

    >>> parse("1.0.dev1")
    <Version('1.0.dev1')>
    """
    return Version(version)


class Version:
    """A version, which is compared by PEP 440, Summary of permitted suffixes and relative ordering.

    Its numbers are below 2^64. Making one is one call of the library, for the bytes by which it is compared
    and hashed; comparing needs no call. Its text and its parts are computed on first use. Raises
    `InvalidVersion` for a text that is not a version.

    What is written here is used where ctypes calls the library. Otherwise the extension has the same making,
    comparing, text and parts, and what it has not is taken from here.

    >>> Version("1.0a5") < Version("1.0") == Version("1.0.0")
    True
    >>> version = Version("1!2.3-rc.4")
    >>> str(version), version.epoch, version.release, version.pre, version.is_prerelease
    ('1!2.3rc4', 1, (2, 3), ('rc', 4), True)
    """

    __slots__ = ("_key", "_given", "_normal", "_read", "__weakref__")
    __match_args__ = ("_str",)

    _key: bytes
    _given: str
    _normal: str
    _read: Parts

    def __init__(self, version: str) -> None:
        try:
            text = str.encode(version)
        except (TypeError, UnicodeEncodeError):
            text = _bytes_of(version)
        # (in these lines, since another call would cost as much as the library's)
        try:
            buffer = _take_buffer()
        except IndexError:
            buffer = _native.new_buffer()
        length = _key_of(text, len(text), buffer, _SIZE)
        if 0 <= length <= _SIZE:
            key = buffer[:length]
            _give_buffer(buffer)
        else:
            key = _long_key(version, text)
        if hasattr(self, "_given"):
            raise TypeError("a version is made once")
        # (what has a class of its own may print, and be pickled, as something else)
        self._key, self._given = key, version if type(version) is str else str.__str__(version)

    def _refuse(self, version: str) -> None:
        """Raises the error for what is no version."""
        raise _refusal(version, _bytes_of(version))

    def __repr__(self) -> str:
        return f"<Version('{self}')>"

    def __str__(self) -> str:
        """The normal text, from which the version can be read again."""
        try:
            return self._normal
        except AttributeError:
            self._normal = _native.version(_native.encoded(self._given))
            return self._normal

    @property
    def _str(self) -> str:
        """The text, by which `match` compares."""
        return str(self)

    @classmethod
    def from_parts(
        cls,
        *,
        epoch: int = 0,
        release: Tuple[int, ...],
        pre: Optional[Tuple[str, int]] = None,
        post: Optional[int] = None,
        dev: Optional[int] = None,
        local: Optional[str] = None,
    ) -> "Version":
        """The version of these parts. Raises `InvalidVersion` if they are none of a version.

        >>> Version.from_parts(release=(1, 2), pre=("beta", 3))
        <Version('1.2b3')>
        """
        return cls(text_of_parts(Parts(epoch, release, pre, post, dev, local)))

    def __replace__(self, **parts: Any) -> "Version":
        """The version with other parts in place of those that are named, as of `from_parts`; None leaves a
        part out.

        >>> Version("1.2rc1+local").__replace__(pre=None, post=4)
        <Version('1.2.post4+local')>
        """
        # (texts are compared, since a part may be equal to another one that is none)
        text = text_of_parts(Parts(**{**self._parts._asdict(), **parts}))
        return self if text == text_of_parts(self._parts) else type(self)(text)

    def __reduce__(self) -> "Tuple[type, Tuple[str], Any]":
        return self.__class__, (self._given,), of_its_own(self)

    def __hash__(self) -> int:
        return hash(self._key)

    def __lt__(self, other: "Version") -> bool:
        if not isinstance(other, Version):
            return NotImplemented
        return self._key < other._key

    def __le__(self, other: "Version") -> bool:
        if not isinstance(other, Version):
            return NotImplemented
        return self._key <= other._key

    def __eq__(self, other: object) -> bool:
        if not isinstance(other, Version):
            return NotImplemented
        return self._key == other._key

    def __ne__(self, other: object) -> bool:
        if not isinstance(other, Version):
            return NotImplemented
        return self._key != other._key

    def __ge__(self, other: "Version") -> bool:
        if not isinstance(other, Version):
            return NotImplemented
        return self._key >= other._key

    def __gt__(self, other: "Version") -> bool:
        if not isinstance(other, Version):
            return NotImplemented
        return self._key > other._key

    @property
    def _parts(self) -> Parts:
        try:
            return self._read
        except AttributeError:
            # (a class below this one may print something else)
            self._read = _parts_of(Version.__str__(self))
            return self._read

    @property
    def epoch(self) -> int:
        """The number before `!`, or 0 if there is none."""
        return self._parts.epoch

    @property
    def release(self) -> Tuple[int, ...]:
        """The numbers with dots between them, including zeros at the end."""
        return self._parts.release

    @property
    def pre(self) -> Optional[Tuple[str, int]]:
        """The pre-release, as `('rc', 1)`, or None."""
        return self._parts.pre

    @property
    def post(self) -> Optional[int]:
        """The number of the post-release, or None."""
        return self._parts.post

    @property
    def dev(self) -> Optional[int]:
        """The number of the developmental release, or None."""
        return self._parts.dev

    @property
    def local(self) -> Optional[str]:
        """The local part, which is the text after `+`, or None."""
        return self._parts.local

    @property
    def public(self) -> str:
        """The text without the local part.

        >>> Version("1!1.2.3dev1+abc").public
        '1!1.2.3.dev1'
        """
        return str(self).split("+", 1)[0]

    @property
    def base_version(self) -> str:
        """The text of epoch and release.

        >>> Version("1!1.2.3dev1+abc").base_version
        '1!1.2.3'
        """
        epoch = f"{self.epoch}!" if self.epoch else ""
        return epoch + ".".join(map(str, self.release))

    @property
    def is_prerelease(self) -> bool:
        """Whether it is a pre-release or a developmental release."""
        return self._parts.dev is not None or self._parts.pre is not None

    @property
    def is_postrelease(self) -> bool:
        """Whether it is a post-release."""
        return self._parts.post is not None

    @property
    def is_devrelease(self) -> bool:
        """Whether it is a developmental release."""
        return self._parts.dev is not None

    @property
    def major(self) -> int:
        """The first number of the release."""
        return self.release[0]

    @property
    def minor(self) -> int:
        """The second number of the release, or 0."""
        return self.release[1] if len(self.release) >= 2 else 0

    @property
    def micro(self) -> int:
        """The third number of the release, or 0."""
        return self.release[2] if len(self.release) >= 3 else 0


def _bytes_of(version: object) -> bytes:
    if not isinstance(version, str):
        raise TypeError(f"a version is read from a str, not from {type(version).__name__}")
    return _native.encoded(version)


def _long_key(version: str, text: bytes) -> bytes:
    """The key of a version for which a buffer is too short. Raises `InvalidVersion` for a text that is not a
    version."""
    key = _native.long_version_key(text)
    if key is None:
        raise _refusal(version, text)
    return key


def _refusal(version: str, text: bytes) -> InvalidVersion:
    """The error for a text that is not a version."""
    try:
        _native.version(text)
    except _native.Fault as fault:
        return refusal(InvalidVersion, fault, version, f"Invalid version: {version!r}: {fault.message}")
    raise AssertionError(f"{version!r} has a normal text and no key")


def _parts_of(normal: str) -> Parts:
    found = _PARTS.fullmatch(normal)
    if found is None:
        raise AssertionError(f"{normal!r} is no normal text of a version")
    epoch, release, kind, number, post, dev, local = found.groups()
    return Parts(
        int(epoch or 0),
        tuple(map(int, release.split("."))),
        (kind, int(number)) if kind else None,
        int(post) if post else None,
        int(dev) if dev else None,
        local,
    )


def normalize_pre(letter: str) -> str:
    """The normal spelling of a word for a pre-release (PEP 440, Pre-release spelling). Any other text is
    returned in lower case.

    >>> normalize_pre("alpha"), normalize_pre("Preview"), normalize_pre("Foo")
    ('a', 'rc', 'foo')
    """
    letter = letter.lower()
    if letter.isascii() and letter.isalpha() and is_version(f"0{letter}0"):
        return str(Version(f"0{letter}0")).strip("0.")
    return letter


def text_of_parts(parts: Parts) -> str:
    """The text of a version with these parts, any but the release being None or 0 where it has none. Raises
    `InvalidVersion` for a part of another form."""
    epoch, release = parts.epoch or 0, (0,) if parts.release is None else parts.release
    _want(_is_number(epoch), "epoch", "a number from 0 to 2^64 - 1", epoch)
    is_release = isinstance(release, tuple) and bool(release) and all(map(_is_number, release))
    _want(is_release, "release", "a tuple of numbers from 0 to 2^64 - 1", release)
    text = (f"{_digits(epoch)}!" if epoch else "") + ".".join(map(_digits, release))
    if parts.pre is not None:
        letter, number = parts.pre if isinstance(parts.pre, tuple) and len(parts.pre) == 2 else ("", -1)
        letter = normalize_pre(letter) if isinstance(letter, str) else ""
        is_pre = letter in ("a", "b", "rc") and _is_number(number)
        _want(is_pre, "pre", "a pair of 'a', 'b' or 'rc' and a number from 0 to 2^64 - 1", parts.pre)
        text += f"{letter}{_digits(number)}"
    for name, value in (("post", parts.post), ("dev", parts.dev)):
        if value is not None:
            _want(_is_number(value), name, "a number from 0 to 2^64 - 1", value)
            text += f".{name}{_digits(value)}"
    if parts.local is not None:
        # (white space at its end would be read as that around a version)
        is_local = isinstance(parts.local, str) and parts.local.split() == [parts.local]
        _want(is_local, "local", "a local version", parts.local)
        text += "+" + str.__str__(parts.local)
    return text


def _is_number(value: object) -> bool:
    return isinstance(value, int) and 0 <= value < 1 << 64


def _digits(number: int) -> str:
    """The digits of a number, which may have a class of its own and print as something else."""
    return int.__repr__(number)


def _want(is_given: bool, part: str, what: str, value: object) -> None:
    if not is_given:
        raise InvalidVersion(f"{part} has to be {what}, not {told(value)}")


def is_prerelease(text: str) -> bool:
    """Whether the version of this text is a pre-release or a developmental release; without letters it isn't.
    """
    return not text.replace(".", "").isdecimal() and Version(text).is_prerelease


def is_version(text: str) -> bool:
    """Whether a text is a version."""
    try:
        Version(text)
    except InvalidVersion:
        return False
    return True


def text_of(version: object) -> str:
    """The text of a version or of what should be one, without blanks around it; it has no line feed."""
    if isinstance(version, Version):
        return version._given.strip(" \t\n\r\f")
    if isinstance(version, str):
        text = str.strip(version, " \t\n\r\f")
        return str(Version(version)) if "\n" in text else text
    raise TypeError(f"a version is read from a str, not from {type(version).__name__}")


def _parts_by_name(version: Version) -> Parts:
    return Parts(version.epoch, version.release, version.pre, version.post, version.dev, version.local)


text_of = _native.instead_of("text_of", text_of)
if _native.extension is not None:
    # (it keeps its text and its parts by itself)
    Version = _native.of_the_extension(Version, ("_normal", "_read"), _parts=property(_parts_by_name))  # type: ignore[misc]
