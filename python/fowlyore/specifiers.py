"""Specifiers and sets of them (PEP 440, Version specifiers).

Which versions a specifier accepts is the library's answer. Which pre-releases are let in is decided here, as
by packaging 26.2 (PEP 440, Handling of pre-releases): all of them if `prereleases` is true, none if it is
false, and if it is None those of a `filter` in which no final release is accepted. One version alone, as
`contains` is given, is a pre-release beside no final one.

A text that is no version is accepted by no specifier, and so only by a set without any. One that would be a
version if its numbers were below 2^64, and without white space around it other than blanks, tabs, line feeds,
carriage returns and form feeds, raises `InvalidVersion`.

`is_disjoint`, `is_subset` and `is_empty` compare specifiers as ranges. A range is a set of points on the line
of versions: each version, including pre-releases, and each place between versions. The answers are exact over
these points. So `>=1.2,<2` is a subset of `~=1.2`, but not the other way round: `~=1.2` goes up to `2.dev0`,
and `<2` ends a little before, below all versions of release 2, though no version lies between these two
places. `==1.0` is the single point 1.0, though it accepts `1.0+local` too: so `==1.0,==1.0+local` has no
point, and accepts a version."""

import re
from typing import Any, Callable, FrozenSet, Iterable, Iterator, List, Optional, Tuple, TypeVar, Union
from typing import overload

from . import _native
from ._cached import of_its_own
from .errors import Refused, refusal
from .version import InvalidVersion, Version, is_prerelease, is_version, text_of

__all__ = ["InvalidSpecifier", "Specifier", "SpecifierSet"]

UnparsedVersion = Union[Version, str]
UnparsedVersionVar = TypeVar("UnparsedVersionVar", bound=UnparsedVersion)
Item = TypeVar("Item")
Ranged = Union["Specifier", "SpecifierSet", str]

# Digits of a number that may need more than 64 bits.
_MANY_DIGITS = re.compile("[0-9]{20,}")


class InvalidSpecifier(Refused):
    """A text is not a specifier, or not a list of them.

    >>> Specifier("=1.0")
    Traceback (most recent call last):
    fowlyore.specifiers.InvalidSpecifier: Invalid specifier: '=1.0'...
    """


def _members(text: str) -> List[str]:
    """The normal texts of a list's members. Raises `InvalidSpecifier` for a text that is not a list."""
    if not isinstance(text, str):
        raise TypeError(f"a specifier is read from a str, not from {type(text).__name__}")
    try:
        return _native.specifiers(_native.encoded(text))
    except _native.Fault as fault:
        message = f"Invalid specifier: {text!r}: {fault.message}"
        raise refusal(InvalidSpecifier, fault, text, message) from None


def _takes(specifiers: bytes, version: UnparsedVersion, admits: Optional[bool]) -> bool:
    """Whether a list of specifiers accepts one version, or what should be one: a pre-release unless `admits`
    is false."""
    answer = _native.take_one(specifiers, _line(version).encode("utf-8", "replace"))
    if answer == b"?":
        return _takes_no_version(specifiers, version)
    return answer == b"1" and (admits is None or bool(admits) or not _is_prerelease(version))


def _taken(
    specifiers: bytes,
    iterable: Iterable[Any],
    admits: Optional[bool],
    key: Optional[Callable[[Any], UnparsedVersion]],
) -> Iterator[Any]:
    """Those items whose versions are accepted, in their order, by one call of the library: pre-releases if
    `admits` is true, and if it is None where there is no final release."""
    items = list(iterable)
    versions: List[UnparsedVersion] = items if key is None else [key(it) for it in items]
    answers = _native.take(specifiers, _lines(versions).encode("utf-8", "replace"))
    if admits and b"?" not in answers:
        return iter([it for it, answer in zip(items, answers) if answer == ord("1")])
    accepted: List[Tuple[Any, bool]] = []
    has_final = False
    for item, version, answer in zip(items, versions, answers):
        early = False
        if answer == ord("1"):
            early = not admits and _is_prerelease(version)
            has_final = has_final or not early
        elif answer == ord("0") or not _takes_no_version(specifiers, version):
            continue
        accepted.append((item, early))
    admits_all = admits or (admits is None and not has_final)
    return iter([item for item, early in accepted if admits_all or not early])


def _lines(versions: List[UnparsedVersion]) -> str:
    """The versions' texts, one per line. Texts without a line feed are joined as they are."""
    if all(type(it) is str for it in versions):
        lines = "\n".join([*versions, ""])  # type: ignore[list-item]
        if lines.count("\n") == len(versions):
            return lines
    return "".join(f"{_line(it)}\n" for it in versions)


def _line(version: UnparsedVersion) -> str:
    """The text of a version, or of what should be one, on one line. A text of more lines is no version, and
    neither is what stands for it."""
    try:
        return text_of(version)
    except InvalidVersion:
        return "?"


def _takes_no_version(specifiers: bytes, text: UnparsedVersion) -> bool:
    """Whether a list of specifiers accepts a text that the library doesn't read. Raises `InvalidVersion` if
    with smaller numbers, and without white space around it, it would be a version."""
    if is_version(_MANY_DIGITS.sub("0", _text(text)).strip()):
        Version(_text(text))
    return not specifiers


def _text(given: object) -> str:
    """The text of what is one, or prints as one."""
    return given if isinstance(given, str) else str(given)


def _is_prerelease(version: UnparsedVersion) -> bool:
    return is_prerelease(text_of(version))


_lines = _native.instead_of("lines", _lines)
_is_prerelease = _native.instead_of("is_prerelease", _is_prerelease)


def _of_ranges(call: Callable[..., bool], *given: "Ranged") -> bool:
    """The answer of a call on specifiers as ranges. Raises `InvalidSpecifier` for one without a range."""
    lists = [SpecifierSet(it) if isinstance(it, str) else it for it in given]
    for it in lists:
        if not isinstance(it, (Specifier, SpecifierSet)):
            raise TypeError(f"a range is that of a Specifier or a SpecifierSet, not of {type(it).__name__}")
    try:
        return call(*(it._bytes for it in lists))
    except _native.Fault as fault:
        text = str(lists[fault.input - 1])
        raise InvalidSpecifier(f"{text!r} has no range: {fault.message}", text=text) from None


def _want_new(made: "Union[Specifier, SpecifierSet]") -> None:
    """Refuses to make again what was made: it would keep what is known of the one before."""
    if hasattr(made, "_bytes"):
        raise TypeError("specifiers are made once")


class Specifier:
    """One specifier: an operator and a version.

    >>> specifier = Specifier("~= 1.4.2")
    >>> specifier.operator, specifier.version, str(specifier)
    ('~=', '1.4.2', '~=1.4.2')
    >>> "1.4.9" in specifier, "1.5" in specifier
    (True, False)
    """

    __slots__ = ("_operator", "_version", "_normal", "_bytes", "_prereleases", "_names_one", "__weakref__")
    __match_args__ = ("_str",)

    _names_one: bool

    def __init__(self, spec: str = "", prereleases: Optional[bool] = None) -> None:
        _want_new(self)
        members = _members(spec)
        if len(members) != 1:
            raise InvalidSpecifier(f"Invalid specifier: {spec!r}: {len(members)} specifiers, not one", text=spec, line=1)
        # (the characters alone, of a text that has a class of its own, and joins and splits in another way)
        normal, text = members[0], str.__str__(spec)
        self._operator = normal[: len(normal) - len(normal.lstrip("=<>!~"))]
        self._version = text.strip()[len(self._operator) :].strip()
        self._normal = normal[len(self._operator) :].strip()
        # (a class below this one may print something else)
        self._bytes = _native.encoded(self._operator + self._version)
        self._prereleases = prereleases

    @property
    def operator(self) -> str:
        """The operator, as `>=`."""
        return self._operator

    @property
    def version(self) -> str:
        """The version as it was written, including its star."""
        return self._version

    @property
    def prereleases(self) -> bool:
        """Whether pre-releases are let in: as it was set, or otherwise if the version is one and the operator
        isn't `!=`."""
        if self._prereleases is not None:
            return self._prereleases
        try:
            return self._names_one
        except AttributeError:
            self._names_one = self._operator != "!=" and is_prerelease(self._without_star())
            return self._names_one

    @prereleases.setter
    def prereleases(self, value: Optional[bool]) -> None:
        self._prereleases = value

    def _without_star(self) -> str:
        return self._normal[:-2] if self._normal.endswith(".*") else self._normal

    @property
    def _canonical(self) -> Tuple[str, str, bytes]:
        """A value that is equal for specifiers with the same operator that accept the same versions. Zeros at
        the end of the release count after `~=`, after `===` and before a star."""
        if self._operator in ("~=", "===") or self._normal.endswith(".*"):
            return self._operator, self._normal, b""
        return self._operator, "", Version(self._normal)._key

    def __reduce__(self) -> "Tuple[type, Tuple[str, Optional[bool]], Any]":
        return self.__class__, (self._bytes.decode(), self._prereleases), of_its_own(self)

    def __str__(self) -> str:
        return self._operator + self._version

    @property
    def _str(self) -> str:
        """The text, by which `match` compares."""
        return str(self)

    def __repr__(self) -> str:
        return f"<Specifier({str(self)!r}{_shown(self._prereleases)})>"

    def __hash__(self) -> int:
        return hash(self._canonical)

    def __eq__(self, other: object) -> bool:
        if isinstance(other, str):
            try:
                other = Specifier(other)
            except InvalidSpecifier:
                return NotImplemented
        elif not isinstance(other, Specifier):
            return NotImplemented
        return self._canonical == other._canonical

    def __contains__(self, item: UnparsedVersion) -> bool:
        return self.contains(item)

    def contains(self, item: UnparsedVersion, prereleases: Optional[bool] = None) -> bool:
        """Whether it accepts a version; a pre-release unless `prereleases` is False, or is None where it is
        set to False on the specifier.

        >>> Specifier(">=1").contains("2.0rc1"), Specifier(">=1").contains("2.0rc1", prereleases=False)
        (True, False)
        """
        return _takes(self._bytes, item, self._prereleases if prereleases is None else prereleases)

    @overload
    def filter(
        self, iterable: Iterable[UnparsedVersionVar], prereleases: Optional[bool] = None, key: None = None
    ) -> Iterator[UnparsedVersionVar]: ...

    @overload
    def filter(
        self,
        iterable: Iterable[Item],
        prereleases: Optional[bool] = None,
        key: Callable[[Item], UnparsedVersion] = ...,
    ) -> Iterator[Item]: ...

    def filter(
        self,
        iterable: Iterable[Any],
        prereleases: Optional[bool] = None,
        key: Optional[Callable[[Any], UnparsedVersion]] = None,
    ) -> Iterator[Any]:
        """The items that it accepts, in their order, by one call of the library: versions, or what `key`
        returns a version for. If only pre-releases are accepted they are returned, unless `prereleases` is
        False, or is None where it is set to False on the specifier.

        >>> list(Specifier(">=1.2.3").filter(["1.2", "1.3", "1.5a1"]))
        ['1.3']
        >>> list(Specifier(">=1.2.3").filter(["1.2", "1.5a1"]))
        ['1.5a1']
        >>> list(Specifier(">=1.2.3").filter([("foo", "1.2"), ("foo", "1.3")], key=lambda it: it[1]))
        [('foo', '1.3')]
        """
        admits = self._prereleases if prereleases is None else prereleases
        return _taken(self._bytes, iterable, self.prereleases or None if admits is None else admits, key)

    def is_disjoint(self, other: "Ranged") -> bool:
        """Whether this range has no point in common with another one (see this module). As `is_subset` does,
        it raises `InvalidSpecifier` for a range whose end would need a number past 64 bits.

        >>> Specifier(">=2").is_disjoint("<2"), Specifier(">=2").is_disjoint("<=2")
        (True, False)
        """
        return _of_ranges(_native.disjoint, self, other)

    def is_subset(self, other: "Ranged") -> bool:
        """Whether each point of this range is in another one (see this module).

        >>> Specifier(">1.2").is_subset(">=1.2"), Specifier("==1.2.*").is_subset(">=1.2")
        (True, False)
        """
        return _of_ranges(_native.subset, self, other)


if _native.extension is not None:
    Specifier = _native.of_the_extension(Specifier)  # type: ignore[misc]


def _shown(prereleases: Optional[bool]) -> str:
    return "" if prereleases is None else f", prereleases={prereleases!r}"


class SpecifierSet:
    """A list of specifiers, all of which have to accept a version. Its members are in the order in which they
    were written, but print in that of their texts, equal ones once. Lists are equal if each member of one is
    equal to some member of the other.

    >>> specifiers = SpecifierSet(">=1.0,!=1.3, <2")
    >>> str(specifiers), len(specifiers), "1.2" in specifiers, "1.3" in specifiers
    ('!=1.3,<2,>=1.0', 3, True, False)
    >>> [it.operator for it in specifiers]
    ['>=', '!=', '<']
    >>> list(specifiers.filter(["0.9", "1.2", "1.3", "2.0"]))
    ['1.2']
    """

    __slots__ = ("_bytes", "_given", "_made", "_compared", "_prereleases", "__weakref__")
    __match_args__ = ("_str",)

    _made: Tuple[Specifier, ...]
    _compared: FrozenSet[Specifier]

    def __init__(
        self, specifiers: Union[str, Iterable[Union[str, Specifier]]] = "", prereleases: Optional[bool] = None
    ) -> None:
        _want_new(self)
        if isinstance(specifiers, str):
            # Empty members are passed over, as packaging does.
            self._given = ",".join(it for it in str.split(specifiers, ",") if it.strip())
            _members(self._given)
        else:
            self._made = tuple(it if isinstance(it, Specifier) else Specifier(it) for it in specifiers)
            self._given = b",".join([it._bytes for it in self._made]).decode()
        self._bytes = _native.encoded(self._given)
        self._prereleases = prereleases

    @property
    def _specs(self) -> Tuple[Specifier, ...]:
        try:
            return self._made
        except AttributeError:
            self._made = tuple(map(Specifier, filter(None, self._given.split(","))))
            return self._made

    @property
    def _distinct(self) -> FrozenSet[Specifier]:
        """The members, of equal ones that with the least text."""
        try:
            return self._compared
        except AttributeError:
            self._compared = frozenset(sorted(self._specs, key=str))
            return self._compared

    @property
    def prereleases(self) -> Optional[bool]:
        """Whether pre-releases are let in: as it was set, or otherwise True if some member lets them in, and
        None if none does."""
        if self._prereleases is not None:
            return self._prereleases
        # (of a member it may have been set meanwhile)
        for it in self._specs:
            if it.prereleases:
                return True
        return None

    @prereleases.setter
    def prereleases(self, value: Optional[bool]) -> None:
        self._prereleases = value

    def __reduce__(self) -> "Tuple[type, Tuple[Union[str, Tuple[Specifier, ...]], Optional[bool]], Any]":
        # (the members themselves, once there are some: of each it may be set whether it lets pre-releases in)
        return self.__class__, (getattr(self, "_made", self._given), self._prereleases), of_its_own(self)

    def __str__(self) -> str:
        return ",".join(sorted(map(str, self._distinct)))

    @property
    def _str(self) -> str:
        """The text, by which `match` compares."""
        return str(self)

    def __repr__(self) -> str:
        return f"<SpecifierSet({str(self)!r}{_shown(self._prereleases)})>"

    def __hash__(self) -> int:
        return hash(self._distinct)

    def __and__(self, other: "Union[SpecifierSet, str]") -> "SpecifierSet":
        if isinstance(other, str):
            other = SpecifierSet(other)
        elif not isinstance(other, SpecifierSet):
            return NotImplemented
        said = {self._prereleases, other._prereleases} - {None}
        if len(said) > 1:
            raise ValueError("Cannot combine SpecifierSets with True and False prerelease overrides.")
        prereleases = said.pop() if said else None
        if hasattr(self, "_made") or hasattr(other, "_made"):
            return SpecifierSet(self._specs + other._specs, prereleases)
        # Members are read off both texts once they are asked for.
        both = SpecifierSet.__new__(SpecifierSet)
        both._given = ",".join(filter(None, (self._given, other._given)))
        both._bytes, both._prereleases = _native.encoded(both._given), prereleases
        return both

    def __eq__(self, other: object) -> bool:
        if isinstance(other, (str, Specifier)):
            other = SpecifierSet(other if isinstance(other, str) else [other])
        elif not isinstance(other, SpecifierSet):
            return NotImplemented
        return self._distinct == other._distinct

    def __len__(self) -> int:
        return len(self._specs)

    def __iter__(self) -> Iterator[Specifier]:
        return iter(self._specs)

    def __contains__(self, item: UnparsedVersion) -> bool:
        return self.contains(item)

    def contains(
        self, item: UnparsedVersion, prereleases: Optional[bool] = None, installed: Optional[bool] = None
    ) -> bool:
        """Whether all members accept a version; a pre-release unless `prereleases` is False, or is None where
        it is set to False on the list. If the version is `installed` it may be a pre-release all the same.

        >>> specifiers = SpecifierSet(">=1,<3")
        >>> specifiers.contains("2.0rc1"), specifiers.contains("2.0rc1", prereleases=False)
        (True, False)
        >>> specifiers.contains("2.0rc1", prereleases=False, installed=True)
        True
        """
        admits = self._prereleases if prereleases is None else prereleases
        return _takes(self._bytes, item, True if installed else admits)

    @overload
    def filter(
        self, iterable: Iterable[UnparsedVersionVar], prereleases: Optional[bool] = None, key: None = None
    ) -> Iterator[UnparsedVersionVar]: ...

    @overload
    def filter(
        self,
        iterable: Iterable[Item],
        prereleases: Optional[bool] = None,
        key: Callable[[Item], UnparsedVersion] = ...,
    ) -> Iterator[Item]: ...

    def filter(
        self,
        iterable: Iterable[Any],
        prereleases: Optional[bool] = None,
        key: Optional[Callable[[Any], UnparsedVersion]] = None,
    ) -> Iterator[Any]:
        """The items that all members accept, in their order, by one call of the library: versions, or what
        `key` returns a version for. Pre-releases are returned if `prereleases` is true, or, if that is None,
        if `self.prereleases` is; if both are None they are returned if no final release is accepted.

        >>> list(SpecifierSet(">=1.2.3").filter(["1.2", "1.3", "1.5a1"]))
        ['1.3']
        >>> list(SpecifierSet(">=1.2.3").filter(["1.2", "1.5a1"]))
        ['1.5a1']
        >>> list(SpecifierSet(">=1.2.3,<2").filter([("foo", "1.2"), ("foo", "1.3")], key=lambda it: it[1]))
        [('foo', '1.3')]
        """
        return _taken(self._bytes, iterable, self.prereleases if prereleases is None else prereleases, key)

    def is_disjoint(self, other: "Ranged") -> bool:
        """Whether this range has no point in common with another one (see this module). As `is_subset` and
        `is_empty` do, it raises `InvalidSpecifier` for a range whose end would need a number past 64 bits.

        >>> SpecifierSet(">=1,<2").is_disjoint("~=2.0"), SpecifierSet(">=1,<=2").is_disjoint("==2.0")
        (True, False)
        """
        return _of_ranges(_native.disjoint, self, other)

    def is_subset(self, other: "Ranged") -> bool:
        """Whether each point of this range is in another one (see this module).

        >>> SpecifierSet(">=1.2,<2").is_subset("~=1.2"), SpecifierSet("~=1.2").is_subset(">=1.2,<2")
        (True, False)
        """
        return _of_ranges(_native.subset, self, other)

    def is_empty(self) -> bool:
        """Whether this range has no point (see this module).

        >>> SpecifierSet(">=2,<1").is_empty(), SpecifierSet(">=1,<1.1").is_empty()
        (True, False)
        """
        return _of_ranges(_native.empty, self)


if _native.extension is not None:
    SpecifierSet = _native.of_the_extension(SpecifierSet)  # type: ignore[misc]
