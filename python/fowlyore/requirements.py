"""Requirements (PEP 508)."""

import re
from typing import Any, FrozenSet, Optional, Set, Tuple, Union

from . import _native
from ._cached import cached_property
from .errors import Refused, on_one_line, refusal
from .markers import Marker, marker_of
from .specifiers import SpecifierSet
from .urls import warn_of_marker_in

__all__ = ["InvalidRequirement", "Requirement"]

# The name and the extras at the front of a requirement's text.
_FRONT = re.compile(r"\s*([A-Za-z0-9](?:[A-Za-z0-9._-]*[A-Za-z0-9])?)\s*(?:\[([^\]]*)\])?")


class InvalidRequirement(Refused):
    """A text is not a requirement.

    >>> Requirement("name=1")
    Traceback (most recent call last):
    fowlyore.requirements.InvalidRequirement: ...
    """


class Requirement:
    """A requirement: a name, extras, specifiers or a URL, and a marker.

    Name and extras are as they were written, and compared by their normal names. The marker is None if none
    was written, which compares equal to one that always holds. All of these can be set. The functions on
    lists read the text that a requirement was made from, or, if a part was set, one with the parts that it
    has then. A URL that ends in `;` and a marker, without white space before the `;`, is read as a URL with
    that at its end, of which `MarkerInURLWarning` warns. Raises `InvalidRequirement` for a text that is not a
    requirement.

    >>> requirement = Requirement('Requests[Socks]>=2.8.1, == 2.8.* ; python_version > "3.7"')
    >>> requirement.name, requirement.extras, str(requirement.specifier), str(requirement.marker)
    ('Requests', {'Socks'}, '==2.8.*,>=2.8.1', "python_full_version >= '3.8'")
    >>> requirement == Requirement("requests[socks] (==2.8.*,>=2.8.1) ; python_full_version >= '3.8.0'")
    True
    """

    def __init__(self, requirement_string: str) -> None:
        text = requirement_string
        if "_given" in vars(self):
            raise TypeError("a requirement is made once")
        if not isinstance(text, str):
            raise TypeError(f"a requirement is read from a str, not from {type(text).__name__}")
        # (the characters alone, of a text that has a class of its own)
        text = str.__str__(text)
        on_one_line(InvalidRequirement, text)
        try:
            self._parts = _native.requirement(_native.encoded(text))
        except _native.Fault as fault:
            raise refusal(InvalidRequirement, fault, text, fault.message) from None
        found = _FRONT.match(text)
        if found is None:
            raise AssertionError(f"{text!r} has a name and none")
        self._given = text.strip()
        self.name: str = found[1]
        self.url: Optional[str] = self._parts.url or None
        self.extras: Set[str] = {it.strip() for it in (found[2] or "").split(",") if it.strip()}
        self._written = self._front()
        self._read = self._values()
        if self._parts.marker is None:
            warn_of_marker_in(self._parts.url)

    @cached_property
    def specifier(self) -> SpecifierSet:
        """The specifiers, empty if there are none."""
        return self._read_specifier

    @cached_property
    def marker(self) -> Optional[Marker]:
        """The marker, or None if none was written."""
        return self._read_marker

    @cached_property
    def _read_specifier(self) -> SpecifierSet:
        return SpecifierSet(self._parts.specifiers)

    @cached_property
    def _read_marker(self) -> Optional[Marker]:
        return None if self._parts.marker is None else marker_of(self._parts.marker.strip())

    def _values(self) -> Tuple[Any, ...]:
        return _plain(self.name), frozenset(map(_plain, self.extras)), _plain(self.url or None)

    def _is_as_read(self) -> bool:
        """Whether no part was set or changed."""
        held = vars(self)
        return (
            self._values() == self._read
            and ("specifier" not in held or held["specifier"] is self._read_specifier)
            and ("marker" not in held or held["marker"] is self._read_marker)
        )

    def _line(self) -> str:
        """Its line in a list: the given text if no part was set, and otherwise one with its current parts.
        That text is read back, and `InvalidRequirement` is raised if other parts are read.

        >>> requirement = Requirement("foo >= 1 ; os_name == 'nt'")
        >>> requirement._line()
        "foo >= 1 ; os_name == 'nt'"
        >>> requirement.extras.add("b")
        >>> requirement._line()
        "foo[b]>=1; os_name == 'nt'"
        """
        if self._is_as_read():
            return self._given
        text = self._text(given_text(self.marker))
        back = Requirement(text)
        same = back._values() == self._values() and back.specifier == self._specifiers()
        if not same or given_text(back.marker) != given_text(self.marker):
            raise InvalidRequirement(f"{text!r} is read with other parts than were set", text=text)
        return text

    def _front(self) -> str:
        extras = f"[{','.join(sorted(self.extras))}]" if self.extras else ""
        return str.__str__(self.name) + extras

    def _normal_front(self) -> Tuple[str, FrozenSet[str]]:
        """The normal names of the package and of the extras."""
        front = self._front()
        parts = self._parts if front == self._written else Requirement(front)._parts
        return parts.name, frozenset(parts.extras.split(","))

    def _condition(self) -> Optional[Marker]:
        """The marker, or None if it always holds."""
        marker = _marker_or_none(self.marker)
        return None if marker is None or marker.is_true() else marker

    def _specifiers(self) -> Union[str, SpecifierSet]:
        """The specifiers, of which there are none where None was set."""
        return "" if self.specifier is None else self.specifier

    def _text(self, marker: str) -> str:
        """The text of its parts, with this marker text; without a marker if that is empty."""
        # (what has a class of its own may print as something else than its characters)
        specifier, url = (str.__str__(it) if isinstance(it, str) else str(it) for it in (self._specifiers(), self.url or ""))
        behind = " @ " + url + (" " if marker else "") if url else ""
        return self._front() + specifier + behind + (f"; {marker}" if marker else "")

    def __str__(self) -> str:
        return self._text("" if self.marker is None else str(self.marker))

    def __repr__(self) -> str:
        return f"<Requirement({str(self)!r})>"

    def __hash__(self) -> int:
        return hash((Requirement, self._normal_front(), self.specifier, self.url, self._condition()))

    def __eq__(self, other: object) -> bool:
        if not isinstance(other, Requirement):
            return NotImplemented
        return (
            self._normal_front() == other._normal_front()
            and self.specifier == other.specifier
            and self.url == other.url
            and self._condition() == other._condition()
        )


def _plain(value: object) -> object:
    """A text that has a class of its own, and may be equal to others, as its characters."""
    return str.__str__(value) if isinstance(value, str) else value


def given_text(marker: Optional[Marker]) -> str:
    """A marker's text as it was given; empty for None."""
    known = _marker_or_none(marker)
    return "" if known is None else known._given


def _marker_or_none(marker: object) -> Optional[Marker]:
    """What was set as a requirement's marker, which may be anything."""
    if marker is None:
        return None
    if isinstance(marker, Marker):
        return marker
    raise TypeError(f"a requirement's marker is a Marker or None, not {type(marker).__name__}")
