"""Markers (PEP 508, Environment Markers)."""

import functools
import json
import operator
import os
import platform
import re
import sys
from typing import TYPE_CHECKING, Any, Callable, Dict, Iterable, List, Literal, Mapping, NamedTuple, Optional, Tuple, Type, Union

from . import _native
from ._bounds import USUAL, Most, most_clauses, most_nodes
from ._cached import keep, of_its_own
from .errors import Refused, on_one_line, refusal, told
from .version import InvalidVersion, Version, text_of

__all__ = [
    "EvaluateContext", "InvalidMarker", "Marker", "TooManyClauses", "TooManyNodes", "UndefinedComparison", "UndefinedEnvironmentName",
    "default_environment",
]  # fmt: skip

EvaluateContext = Literal["metadata", "lock_file", "requirement"]
Bound = Union[None, str, Version]

# What stands for markers that always and never hold, which have no normal text, by the library's word for them.
_CONSTANTS = {b"1": "python_version >= '3' or python_version < '3'", b"0": "python_version < '3' and python_version >= '3'"}
# How deep the brackets of a marker may nest.
_DEEPEST = 256
_PIECE = re.compile(r"""'[^']*'|"[^"]*"|[()]|\bor\b""")


class InvalidMarker(Refused):
    """A text is not a marker.

    >>> Marker("python_version >= ")
    Traceback (most recent call last):
    fowlyore.markers.InvalidMarker: Invalid marker: 'python_version >= '...
    """


class TooManyNodes(InvalidMarker):
    """A marker's decision tree has more nodes than a call may make (`fowlyore.bounds`).

    >>> Marker("os_name == 'nt' or extra == 'a'").implies(Marker("extra == 'a'"), nodes=1)
    Traceback (most recent call last):
    fowlyore.markers.TooManyNodes: more than 1 nodes
    """


class TooManyClauses(InvalidMarker):
    """A marker's normal text has more clauses, before they are simplified, than a call may make (`fowlyore.bounds`).

    >>> Marker("os_name == 'nt' and extra == 'a'").negate(clauses=1)
    Traceback (most recent call last):
    fowlyore.markers.TooManyClauses: more than 1 clauses
    """


class UndefinedComparison(ValueError):
    """For code that catches it: such a comparison is ignored here, and nothing raises this."""


class UndefinedEnvironmentName(Refused):
    """An environment lacks a value, or has an invalid version or a value that isn't a text; or an extra is no name."""


def default_environment() -> Dict[str, str]:
    """The values of the running interpreter for PEP 508's environment markers: a text for each of eleven
    names, as packaging's function returns them. `python_full_version` is the interpreter's own, as
    `3.14.0rc1`. `Marker.evaluate` and the functions on lists read that as 3.14.0 (see `Marker.evaluate`).

    >>> sorted(default_environment())[:4]
    ['implementation_name', 'implementation_version', 'os_name', 'platform_machine']
    """
    implementation = sys.implementation
    info = implementation.version
    version = f"{info.major}.{info.minor}.{info.micro}"
    if info.releaselevel != "final":
        version = f"{version}{info.releaselevel[0]}{info.serial}"
    return {
        "implementation_name": implementation.name,
        "implementation_version": version,
        "os_name": os.name,
        "platform_machine": platform.machine(),
        "platform_release": platform.release(),
        "platform_system": platform.system(),
        "platform_version": platform.version(),
        "python_full_version": platform.python_version(),
        "platform_python_implementation": platform.python_implementation(),
        "python_version": ".".join(platform.python_version_tuple()[:2]),
        "sys_platform": sys.platform,
    }


# What the library reads of an environment.
MEMBERS = frozenset(default_environment())
_NAMES = tuple(MEMBERS)
# The functions that `default_environment` calls, directly or not, by their names in `platform`.
_FUNCTIONS = operator.itemgetter(
    "machine", "python_implementation", "python_version", "python_version_tuple", "release", "system", "uname", "version", "_sys_version"
)  # fmt: skip


def _own_functions() -> Optional[Tuple[Any, ...]]:
    """These functions, or None if one of them is not there or was replaced."""
    try:
        found: Tuple[Any, ...] = (default_environment, *_FUNCTIONS(vars(platform)))
    except KeyError:
        return None
    return found if all(getattr(it, "__module__", None) in ("platform", __name__) for it in found) else None


_OWN = _own_functions()


def _made_of() -> Optional[Tuple[Any, ...]]:
    """All that the running interpreter's environment is made of; None if a function was replaced, which may return
    another value each time."""
    known = vars(platform)
    if _OWN is None or (default_environment, *_FUNCTIONS(known)) != _OWN or known.get("_uname_cache") is None:
        return None
    implementation = sys.implementation
    return os.name, sys.platform, sys.version, implementation.name, implementation.version, known["_uname_cache"]


# What an environment was made of, and the environment.
_kept_running: Tuple[Optional[Tuple[Any, ...]], Dict[str, str]] = (None, {})


def _running() -> Dict[str, str]:
    """The running interpreter's environment, not to be changed: the one made before, if what it was made of is the
    same."""
    global _kept_running
    made_of, environment = _made_of(), _kept_running[1]
    if made_of is None or made_of != _kept_running[0]:
        environment = default_environment()
        _kept_running = _made_of(), environment
    return environment


def completed(given: Optional[Mapping[str, Any]]) -> Dict[str, Any]:
    """The running interpreter's environment with other values put in. Markers read only
    `python_full_version`, so that it follows `python_version` if only that is given."""
    return _completed(_running(), given)


def of_mapping(given: Mapping[str, Any]) -> Dict[str, Any]:
    """An environment that is given as a mapping, or as what has only the keys of one and their values, as a row of a table; of
    pairs what is looked for in a mapping wouldn't be found. What has a class of its own is read once, since it may answer
    otherwise each time."""
    if type(given) is dict:
        return given
    if not isinstance(given, (dict, Mapping)) and not hasattr(given, "keys"):
        raise TypeError(f"an environment is a mapping, not {type(given).__name__}")
    return dict(given)


def _completed(running: Dict[str, str], given: Optional[Mapping[str, Any]]) -> Dict[str, Any]:
    environment: Dict[str, Any] = dict(running)
    if given is not None:
        values = of_mapping(given)
        environment.update(values)
        if "python_version" in values and "python_full_version" not in values:
            environment["python_full_version"] = values["python_version"]
    return environment


# The JSON of environments by the values of their members, which are all texts; what was read of environments that were
# given, with the running one that it was completed by; the library's answers on single markers, by what it was asked.
_kept_json: Dict[Tuple[Any, ...], bytes] = {}
_kept_given: Dict[Tuple[Any, ...], Tuple[Dict[str, str], bytes, Any]] = {}
_kept_answers: Dict[Tuple[str, bytes, Any], bool] = {}
# The value of an item of an environment.
_VALUE = operator.itemgetter(1)
# How many environments are kept, and how many answers.
_MOST_KEPT, _MOST_ANSWERS = 64, 4096


def environment_json(environment: Mapping[str, Any]) -> bytes:
    """The JSON that the library reads of an environment: its members as they are, except that
    `python_full_version` is `full_version_read`."""
    read = of_mapping(environment)
    values = tuple(map(read.get, _NAMES))
    if set(map(type, values)) != {str}:
        return _json_of(read)
    made = _kept_json.get(values)
    if made is None:
        made = _json_of(dict(zip(_NAMES, values)))
        keep(_kept_json, values, made, _MOST_KEPT, len(made))
    return made


def _read_environment(given: Optional[Mapping[str, Any]]) -> Tuple[bytes, Any]:
    """The JSON of the running interpreter's environment with other values put in, and the extra there."""
    running, items = _running(), () if given is None else tuple(of_mapping(given).items())
    # (a text that has a class of its own may be equal to others)
    is_plain = not items or {str}.issuperset(map(type, map(_VALUE, items)))
    kept = _kept_given.get(items) if is_plain else None
    if kept is None or kept[0] is not running:
        values = _completed(running, dict(items))
        kept = running, environment_json(values), values.get("extra")
        if is_plain and {str}.issuperset(type(key) for key, _ in items):
            keep(_kept_given, items, kept, _MOST_KEPT, sum(len(it) for item in items for it in item))
    return kept[1:]


def _json_of(environment: Mapping[str, Any]) -> bytes:
    values = {key: value for key, value in environment.items() if key in MEMBERS}
    full = values.get("python_full_version")
    if isinstance(full, str):
        values["python_full_version"] = full_version_read(str.__str__(full), values.get("python_version"))
    try:
        return json.dumps(values, ensure_ascii=False, allow_nan=False).encode()
    except (TypeError, ValueError, RecursionError):
        # (the library refuses what is no text, and so what JSON has no value for, and what isn't UTF-8)
        return json.dumps({key: it if _is_text(it) else None for key, it in values.items()}, ensure_ascii=False).encode()


def _is_text(value: object) -> bool:
    """Whether a value is a text, of which UTF-8 has each character."""
    if not isinstance(value, str):
        return False
    try:
        str.encode(value)
    except UnicodeEncodeError:
        return False
    return True


def full_version_read(full: str, short: object) -> str:
    """The text that the library reads for an environment's `python_full_version`.

    The library compares `python_version` by this version, and 3.14.0rc1 is less than 3.14 (PEP 440, Summary
    of permitted suffixes and relative ordering), though `python_version` is 3.14 on such an interpreter (PEP
    508, Environment Markers). So if `short`, the environment's `python_version`, is the first two numbers of
    `full`, a pre-release or developmental release is read as its release, and a version with a local part as
    the version without it, which is how PEP 440 compares it with a version that has none. A build that isn't
    tagged ends in `+`, which counts as a local part. Every other text is read as it is given, except that a
    `+` at its end, which no version has, becomes `+local`.

    >>> full_version_read("3.14.0rc1", "3.14"), full_version_read("3.14.0+", "3.14"), full_version_read("3.14.0rc1", "3.13")
    ('3.14.0', '3.14.0', '3.14.0rc1')
    """
    text = full + "local" if full.endswith("+") else full
    if text.replace(".", "").isdecimal():
        return text
    try:
        version = Version(text)
    except InvalidVersion:
        return text
    if version.epoch or short != f"{version.major}.{version.minor}":
        return text
    return version.base_version if version.is_prerelease else version.public


class _Shape(NamedTuple):
    """Whether a marker's text has an `or` outside its brackets, and how deep these are nested."""

    has_or: bool
    depth: int


def _shape_of(text: str) -> _Shape:
    if "(" not in text and "or" not in text:
        return _Shape(False, 0)
    has_or, depth, deepest = False, 0, 0
    for it in _PIECE.findall(text):
        depth += (it == "(") - (it == ")")
        deepest = max(deepest, depth)
        has_or = has_or or (it == "or" and depth == 0)
    return _Shape(has_or, deepest)


@functools.total_ordering
class Marker:
    """A marker. Markers are equal exactly if they hold under the same conditions, however they are written. A
    condition is a value for each key, an answer to each `in` and `not in`, and a set of extras, all
    independent of one another. `<` is a total order, of the bytes by which markers are compared, and means
    nothing more.

    Making a marker checks its text, in time linear in it. The bytes by which it is compared and hashed are
    computed on first use, and so is the normal text that `str` and `repr` return. The text can be exponentially
    longer than the marker, and so can the bytes, though they seldom are: comparing, hashing, and each method
    whose answer needs the marker's decision tree raise `TooManyNodes` beyond the bound in `fowlyore.bounds`,
    and methods that return a marker `TooManyClauses`. Raises `InvalidMarker` for a text that is not a marker.

    >>> marker = Marker('python_version>"3.7" and os.name == "nt"')
    >>> marker == Marker('os.name == "nt" and python_full_version >= "3.8.0"')
    True
    >>> marker.evaluate({"os_name": "nt", "python_version": "3.12"})
    True
    >>> str(Marker('python_version>"3.7" and os_name == "nt"'))
    "python_full_version >= '3.8' and os_name == 'nt'"
    """

    __slots__ = ("_given", "_truth", "_key", "_text", "_beyond", "_joined", "_is_ignored", "_found_shape", "__weakref__")

    _given: str
    _truth: Optional[bytes]
    _key: Optional[bytes]
    _text: Optional[str]
    # The bounds on nodes and clauses within which a normal text wasn't made.
    _beyond: Optional[Tuple[int, int]]
    # The two that `&` or `|` made it of, and whether it was `&`; nothing once its text is known.
    _joined: "Union[Tuple[()], Tuple[Marker, Marker, bool]]"
    _is_ignored: Optional[bool]
    _found_shape: Optional[_Shape]

    def __init__(self, marker: str) -> None:
        if hasattr(self, "_joined"):
            raise TypeError("a marker is made once")
        if not isinstance(marker, str):
            raise TypeError(f"a marker is read from a str, not from {type(marker).__name__}")
        # (the characters alone, of a text that has a class of its own)
        marker = str.__str__(marker)
        on_one_line(InvalidMarker, marker)
        try:
            _native.marker_check(_native.encoded(marker))
        except _native.Fault as fault:
            message = f"Invalid marker: {marker!r}: {fault.message}"
            raise refusal(InvalidMarker, fault, marker, message) from None
        self._set(marker.strip())

    def _set(self, given: str) -> None:
        self._given, self._joined = given, ()
        self._truth = self._key = self._text = self._beyond = self._is_ignored = self._found_shape = None

    if not TYPE_CHECKING:

        def __getattr__(self, name: str) -> Any:
            """What of a marker that `&` or `|` made isn't known yet: its text is written, and all else is None until it is found."""
            if name == "_given":
                # (whoever finds that it is joined of nothing finds its text)
                self._given = text = _text_of_joined(self)
                self._joined = ()
                return text
            if name in ("_truth", "_key", "_text", "_beyond", "_is_ignored", "_found_shape"):
                return None
            raise AttributeError(f"{type(self).__name__!r} object has no attribute {name!r}")

    def __reduce__(self) -> "Tuple[type, Tuple[str], Any]":
        return self.__class__, (self._given,), of_its_own(self)

    def __str__(self) -> str:
        """The normal text, which equal markers have in common. If there is none it is the text that was
        given: for a marker that always or never holds, or that has a string with a single quote, a deprecated
        name of a key, or a version that is more than release numbers of epoch 0; or if it isn't made within
        `fowlyore.bounds`. Either text reads back as an equal marker.

        >>> print(Marker("'x'==platform_version"))
        platform_version == 'x'
        >>> print(Marker("'x'==platform.version"))
        'x'==platform.version
        """
        if self._text is None:
            text = self._normal_text()
            if text is None:
                return self._given
            self._text = text or self._given
        return self._text

    def _normal_text(self) -> Optional[str]:
        """The normal text, an empty text if there is none, and None if none is made within `bounds`."""
        within, beyond = (most_nodes(), most_clauses()), self._beyond
        if beyond is not None and within[0] <= beyond[0] and within[1] <= beyond[1]:
            return None
        try:
            return _native.marker(self._bytes(), *within)
        except (_native.TooManyNodes, _native.TooManyClauses):
            self._beyond = within
            return None
        except _native.Fault:
            return ""

    def __repr__(self) -> str:
        return f"<Marker({str(self)!r})>"

    def _bytes(self) -> bytes:
        return _native.encoded(self._given)

    def _compared(self) -> bytes:
        if self._key is None:
            self._key = self._asked(_native.marker_key, most_nodes())
        return self._key

    def _asked(self, call: Callable[..., Any], nodes: int, *others: "Marker") -> Any:
        """What a call answers on this marker and others, within a bound on the nodes."""
        for it in others:
            if not isinstance(it, Marker):
                raise TypeError(f"a Marker is compared with a Marker, not with {type(it).__name__}")
        asked = self, *others
        try:
            return call(*(it._bytes() for it in asked), nodes)
        except _native.TooManyNodes as fault:
            raise TooManyNodes(fault.message, text=asked[fault.input - 1]._given) from None

    def __hash__(self) -> int:
        return hash((Marker, self._compared()))

    def __eq__(self, other: object) -> bool:
        if not isinstance(other, Marker):
            return NotImplemented
        return self._given == other._given or self._compared() == other._compared()

    def __lt__(self, other: "Marker") -> bool:
        if not isinstance(other, Marker):
            return NotImplemented
        return self._compared() < other._compared()

    def is_true(self) -> bool:
        """Whether it holds under all conditions (see the class).

        >>> Marker("os_name == 'nt' or os_name != 'nt'").is_true()
        True
        """
        return self._constant() == b"1"

    def is_false(self) -> bool:
        """Whether it holds under no condition (see the class).

        >>> Marker("os_name == 'nt' and os_name != 'nt'").is_false()
        True
        """
        return self._constant() == b"0"

    def _constant(self) -> bytes:
        if self._truth is None:
            self._truth = self._asked(_native.marker_truth, most_nodes())
        return self._truth

    def _known_constant(self) -> bytes:
        """`1` if the marker always holds, `0` if it never does, a third byte if neither, and `-` if `bounds` are passed."""
        try:
            return self._constant()
        except TooManyNodes:
            return b"-"

    def is_disjoint(self, other: "Marker", *, nodes: Most = USUAL) -> bool:
        """Whether both markers hold together under no condition (see the class). `nodes` is the bound on the
        nodes of both markers' decision trees together, or None for none.

        >>> Marker("python_version < '3.8'").is_disjoint(Marker("python_full_version >= '3.8.1'"))
        True
        """
        return bool(self._asked(_native.markers_disjoint, most_nodes(nodes), other))

    def implies(self, other: "Marker", *, nodes: Most = USUAL) -> bool:
        """Whether the other marker holds under all conditions under which this one does (see the class). `nodes`
        is the bound on the nodes of both markers' decision trees together, or None for none.

        >>> Marker("python_version >= '3.9'").implies(Marker("python_version >= '3.8'"))
        True
        """
        return bool(self._asked(_native.marker_implies, most_nodes(nodes), other))

    def __and__(self, other: "Marker") -> "Marker":
        """The conjunction: a marker that holds where both do. Its text is written once it is needed, and `InvalidMarker` is
        raised then if brackets would nest deeper than 256 there.

        >>> Marker("os_name == 'nt' or os_name == 'posix'") & Marker("os_name != 'nt'") & Marker("extra == 'x'")
        <Marker("os_name == 'posix' and extra == 'x'")>
        """
        if not isinstance(other, Marker):
            return NotImplemented
        made = _new(Marker)
        made._joined = self, other, True
        return made

    def __or__(self, other: "Marker") -> "Marker":
        """The disjunction: a marker that holds where one of them does. Its text is written once it is needed, as by `&`.

        >>> Marker("os_name == 'nt'") | Marker("os_name == 'posix'")
        <Marker("os_name == 'nt' or os_name == 'posix'")>
        """
        if not isinstance(other, Marker):
            return NotImplemented
        made = _new(Marker)
        made._joined = self, other, False
        return made

    def _may_be_ignored(self) -> bool:
        """Whether `and` and `or` may ignore it: it always holds, perhaps because none of its comparisons means anything. What
        they joined has a comparison that means something, and so has a marker whose tree has too many nodes."""
        if self._is_ignored is None:
            self._is_ignored = not self._joined and self._known_constant() == b"1"
        return self._is_ignored

    def __invert__(self) -> "Marker":
        return self.negate()

    def negate(self, *, nodes: Most = USUAL, clauses: Most = USUAL) -> "Marker":
        """The negation: the marker that holds where this one doesn't. It is made from its normal text, at the
        cost of that text's length. Raises `InvalidMarker` if it has none, unless it always or never holds
        (see `__str__`). `nodes` and `clauses` are bounds, or None for none: `TooManyNodes` and `TooManyClauses`
        are raised beyond them.

        >>> Marker("os_name == 'nt' and python_version >= '3.8'").negate()
        <Marker("python_full_version < '3.8' or os_name != 'nt'")>
        """
        return self._answer(InvalidMarker, _native.marker_negated, nodes=nodes, clauses=clauses)

    def simplify_python_versions(
        self, lower: Bound = None, upper: Bound = None, *, nodes: Most = USUAL, clauses: Most = USUAL
    ) -> "Marker":
        """A marker that holds as this one does where `python_full_version` is at least `lower` and below
        `upper`, without the comparisons that this decides. It is made from its normal text and within bounds,
        as by `negate`.

        >>> marker = Marker("python_version >= '3.8' and python_version < '3.12' and os_name == 'nt'")
        >>> marker.simplify_python_versions(lower="3.9")
        <Marker("python_full_version < '3.12' and os_name == 'nt'")>
        """
        bounds = (b"" if it is None else _native.encoded(str(Version(text_of(it)))) for it in (lower, upper))
        return self._answer(InvalidVersion, _native.marker_simplify_python, *bounds, nodes=nodes, clauses=clauses)

    def simplify_extras(
        self, extras: Union[str, Iterable[str]], *, nodes: Most = USUAL, clauses: Most = USUAL
    ) -> "Marker":
        """A marker that holds as this one does where these extras are requested, without the comparisons with them. It
        is made from its normal text and within bounds, as by `negate`. `UndefinedEnvironmentName` is raised where an
        extra is no name.

        >>> Marker("extra == 'a' and (extra == 'b' or os_name == 'nt')").simplify_extras(["A"])
        <Marker("extra == 'b' or os_name == 'nt'")>
        """
        lines = _native.encoded(_lines_of([extras] if isinstance(extras, str) else extras))
        return self._answer(UndefinedEnvironmentName, _native.marker_simplify_extras, lines, nodes=nodes, clauses=clauses)

    def _answer(
        self, refused: Type[Refused], call: Callable[..., str], *more: bytes, nodes: Most, clauses: Most
    ) -> "Marker":
        """The marker of the normal text that a call returns. `refused` is raised where one of `more` is invalid."""
        try:
            return marker_of(call(self._bytes(), *more, most_nodes(nodes), most_clauses(clauses)) or _CONSTANTS[b"1"])
        except _native.TooManyNodes as fault:
            raise TooManyNodes(fault.message, text=self._given) from None
        except _native.TooManyClauses as fault:
            raise TooManyClauses(fault.message, text=self._given) from None
        except _native.Fault as fault:
            if fault.input > 1:
                raise refused(fault.message) from None
            if fault.message != _native.NEVER_HOLDS:
                raise InvalidMarker(fault.message, text=self._given) from None
        return marker_of(_CONSTANTS[b"0"])

    def evaluate(self, environment: Optional[Mapping[str, Any]] = None, context: EvaluateContext = "metadata") -> bool:
        """Whether the marker holds for the running interpreter, with the values of `environment` instead of
        its own. There `extra` is the one extra that is required, or empty for none. `context` is accepted for
        compatibility with packaging, and has no effect.

        `python_version` is compared by `python_full_version`. If that is a pre-release or developmental
        release, or has a local part or a `+` at its end, and `python_version` is its first two numbers, it is
        read as the release: on 3.14.0rc1 both are compared as those of 3.14.0. Raises
        `UndefinedEnvironmentName` if the environment has an invalid version, an `extra` that is not a name,
        or a value that isn't a text.

        >>> Marker("extra == 'test'").evaluate(), Marker("extra == 'test'").evaluate({"extra": "Test"})
        (False, True)
        >>> early = {"python_full_version": "3.14.0rc1", "python_version": "3.14"}
        >>> Marker("python_version >= '3.14'").evaluate(early)
        True
        """
        values, extra = _read_environment(environment)
        asked = self._given, values, extra or None
        # (a text that has a class of its own may be equal to others)
        is_plain = not extra or type(extra) is str
        answer = _kept_answers.get(asked) if is_plain else None
        if answer is None:
            names = _native.encoded(_lines_of([extra])) if extra else b""
            answer = _answers([self], f"{self._given}\n", values, names) == b"1"
            if is_plain:
                keep(_kept_answers, asked, answer, _MOST_ANSWERS, len(self._given) + len(values) + len(names))
        return answer


def marker_of(text: str) -> Marker:
    """The marker of a text that is known to be one."""
    marker = _new(Marker)
    marker._set(text)
    return marker


_new = object.__new__


def _shape(marker: Marker) -> _Shape:
    """The shape of a marker's text, and of all that it was joined of, the lowest first."""
    left = [marker]
    while left:
        at = left[-1]
        joined = at._joined if at._found_shape is None else ()
        unknown = [it for it in joined[:2] if it._found_shape is None]
        if not unknown:
            left.pop()
            if joined:
                _settle(at, *joined)
            elif at._found_shape is None:
                at._found_shape = _shape_of(at._given)
        left += unknown
    assert marker._found_shape is not None
    return marker._found_shape


def _settle(marker: Marker, left: Marker, right: Marker, is_and: bool) -> None:
    """Finds the shape of a marker that was joined of two whose shapes are known. Another thread may do so too."""
    if left._may_be_ignored() or right._may_be_ignored():
        alone = right if left._may_be_ignored() == is_and else left
        marker._given, marker._is_ignored = alone._given, alone._may_be_ignored()
        marker._joined, marker._found_shape = (), alone._found_shape
        return
    marker._is_ignored = False
    if not is_and:
        marker._found_shape = _Shape(True, max(_shape(left).depth, _shape(right).depth))
        return
    left, right = _as_term(left), _as_term(right)
    if marker._joined:
        marker._joined = left, right, True
    marker._found_shape = _Shape(False, max(it.depth + it.has_or for it in (_shape(left), _shape(right))))


def _as_term(marker: Marker) -> Marker:
    """A marker as a term of `and`. If its brackets would be too deep there it is one of another text, in which they aren't, if
    there is one."""
    shape = _shape(marker)
    if not shape.has_or or shape.depth < _DEEPEST:
        return marker
    text = marker._normal_text() or _CONSTANTS.get(marker._known_constant())
    return marker_of(text) if text else marker


def _pushed(term: Marker) -> "List[Union[str, Marker]]":
    """A term of `and`, from its end."""
    return [")", term, "("] if _shape(term).has_or else [term]


def _text_of_joined(marker: Marker) -> str:
    """The text of what `&` or `|` made, in time linear in it. Raises `InvalidMarker` if brackets are too deep there."""
    is_too_deep = _shape(marker).depth > _DEEPEST
    pieces: List[str] = []
    left: List[Union[str, Marker]] = [marker]
    while left:
        it = left.pop()
        joined = () if isinstance(it, str) else it._joined
        if not joined:
            pieces.append(it if isinstance(it, str) else it._given)
        elif joined[2]:
            left += [*_pushed(joined[1]), " and ", *_pushed(joined[0])]
        else:
            left += [joined[1], " or ", joined[0]]
    text = "".join(pieces)
    return Marker(text)._given if is_too_deep else text


def _lines_of(extras: Iterable[str]) -> str:
    """Extras one per line, as the library reads them: it skips empty lines, so an empty extra is refused
    here."""
    lines = list(extras)
    for it in lines:
        if not isinstance(it, str) or "\n" in it or not it:
            raise UndefinedEnvironmentName(f"extra {told(it)} is no name")
    return "\n".join(lines)


def holds(markers: List[Marker], environment: Mapping[str, Any], extras: List[str]) -> List[bool]:
    """Whether each marker holds in an environment with extras, by one call."""
    names = _native.encoded(_lines_of(extras))
    answers = _answers(markers, "".join(f"{it._given}\n" for it in markers), environment_json(environment), names)
    return [it == ord("1") for it in answers]


def _answers(markers: List[Marker], lines: str, environment: bytes, names: bytes) -> bytes:
    """The library's answers on markers, which stand in these lines too, in the environment of this JSON."""
    try:
        answers = _native.markers_hold(_native.encoded(lines), environment, names)
    except _native.Fault as fault:
        raise UndefinedEnvironmentName(fault.message) from None
    if b"?" in answers:
        raise AssertionError(f"{markers[answers.index(b'?')]._given!r} is a marker and none")
    return answers
