"""Texts of markers in which what is asked of extras and groups is put in other words: those of lock files
(PEP 751), and those of a project whose extras ask for one another. What the markers mean is the library's to
say."""

import re
from typing import Dict, FrozenSet, Iterable, List, Set, Tuple

from . import _native
from ._bounds import most_nodes
from .utils import normal_name

__all__ = ["ALWAYS", "Misplaced", "NotFollowed", "OwnExtras", "of_lock", "truth"]

_TEXT = r"'[^']*'|\"[^\"]*\""
# A name that is asked for in a set; or else a text or a word by itself.
_IN_SET = re.compile(
    rf"(?P<name>{_TEXT})[ \t]*(?P<sign>(?:not[ \t]+)?in)[ \t]+(?P<set>extras|dependency_groups)\b|{_TEXT}|\w+"
)
_SETS = ("extras", "dependency_groups")
# A comparison of `extra` with a text; or else a text or a word by itself.
_EXTRA = re.compile(
    rf"extra[ \t]*(?P<sign>[=!]=)[ \t]*(?P<name>{_TEXT})"
    rf"|(?P<before>{_TEXT})[ \t]*(?P<turned>[=!]=)[ \t]*extra\b|{_TEXT}|\w+"
)
# A marker that holds in each environment, and one that holds in none.
ALWAYS, NEVER = "(os_name == '' or os_name != '')", "(os_name == '' and os_name != '')"
# How many markers may be put into one, and how deep; and how many extras may be named in all.
_MOST, _DEEPEST, _MOST_NAMES = 10_000, 50, 1_000_000


class Misplaced(ValueError):
    """A set is asked for what PEP 751 doesn't define: which set, and where."""

    def __init__(self, found: "re.Match[str]") -> None:
        self.start, self.end = found.span()
        word = found[0]
        super().__init__(f"{word} can only be compared as 'NAME' in {word} or 'NAME' not in {word}")


class NotFollowed(ValueError):
    """The extras of a project ask for one another in a way that isn't followed."""


def of_lock(marker: str, groups: FrozenSet[str]) -> Tuple[str, str]:
    """A lock file's marker as one of PEP 508, in which extras are asked for one by one, and `groups` are
    those that are asked for, by their normal names. It gives two texts: one that is read where the marker can
    be, with all places as they are in it, and one that holds where the marker does.

    Raises `Misplaced` where a set is asked for anything but a name.

    >>> of_lock("'a' not in extras and os_name == 'nt'", frozenset())[1]
    "extra != 'a' and os_name == 'nt'"
    >>> of_lock("'dev' in dependency_groups", frozenset(["dev"]))[1]
    "(os_name == '' or os_name != '')"
    """
    placed: List[str] = []
    judged: List[str] = []
    at = 0
    for found in _IN_SET.finditer(marker):
        if found[0] in _SETS:
            raise Misplaced(found)
        if found["set"] is None:
            continue
        front, length = marker[at : found.start()], len(found[0])
        is_in = found["sign"] == "in"
        # (a quote may follow a word at once)
        judged += front, " " if front[-1:].isalnum() else ""
        if found["set"] == "extras":
            sign = "==" if is_in else "!="
            placed += front, f" extra{sign}{found['name']} ".ljust(length)
            judged.append(f"extra {sign} {found['name']}")
        else:
            placed += front, f" {found['name']} in os_name ".ljust(length)
            judged.append(ALWAYS if (normal_name(found["name"][1:-1]) in groups) == is_in else NEVER)
        at = found.end()
    return "".join([*placed, marker[at:]]), "".join([*judged, marker[at:]])


class OwnExtras:
    """Where each extra of a project is asked for, of which other ones may ask: each reference is an extra,
    and the marker under which the project asks for it, which is empty where it always does.

    >>> extras = OwnExtras([("gui", "extra == 'all'"), ("all", "extra == 'dev' and os_name == 'nt'")])
    >>> extras.followed("extra == 'gui'")
    "(extra == 'gui' or extra == 'all' or (extra == 'dev' and os_name == 'nt'))"
    """

    def __init__(self, references: Iterable[Tuple[str, str]]) -> None:
        # (of each extra those that ask for it whenever they are asked for, and the other markers)
        self._asking: Dict[str, Set[str]] = {}
        self._markers: Dict[str, List[str]] = {}
        self._count = self._names = 0
        for extra, marker in references:
            alone = _EXTRA.fullmatch(marker.strip())
            if alone and alone["name"] and alone["sign"] == "==":
                self._asking.setdefault(extra, set()).add(_named(alone))
            else:
                self._markers.setdefault(extra, []).append(f"({marker.strip()})" if marker.strip() else ALWAYS)

    def followed(self, marker: str, within: FrozenSet[str] = frozenset(), depth: int = 0) -> str:
        """A marker in which an extra is asked for too where another one asks for it. Raises `NotFollowed`
        where it asks where an extra is not there, or would be too long."""

        def put(found: "re.Match[str]") -> str:
            extra = _named(found)
            if found[0] == "extra":
                raise NotFollowed("a marker compares extra with something else than ==")
            if not extra or not (extra in self._asking or extra in self._markers):
                return found[0]
            if "!=" in (found["sign"], found["turned"]):
                raise NotFollowed("a marker asks where an extra is not there")
            return found[0] if extra in within else f"({' or '.join(self._ways(extra, within, depth))})"

        if not depth:
            self._count = 0
        return _EXTRA.sub(put, marker)

    def _ways(self, extra: str, within: FrozenSet[str], depth: int) -> List[str]:
        """The markers of which one holds where an extra is asked for. What one of them asks of an extra that
        is looked at already isn't followed: it would ask for no more."""
        asking = self._reaching(extra, within)
        self._count += 1
        self._names += len(asking)
        if self._count > _MOST or self._names > _MOST_NAMES or depth > _DEEPEST:
            raise NotFollowed("extras ask for one another in too many ways")
        looked_at = within.union(asking)
        ways = {f"extra == '{it}'": None for it in asking}
        for it in asking:
            ways.update((self.followed(marker, looked_at, depth + 1), None) for marker in self._markers.get(it, ()))
        return [*ways]

    def _reaching(self, extra: str, within: FrozenSet[str]) -> List[str]:
        """An extra, and those that ask for it, or for one of these, whenever they are asked for."""
        found = {extra: None}
        waiting = [extra]
        while waiting:
            for it in sorted(self._asking.get(waiting.pop(), ())):
                if it not in found and it not in within:
                    found[it] = None
                    waiting.append(it)
        return [*found]


def _named(found: "re.Match[str]") -> str:
    """The normal name of the extra in a comparison, and nothing where there is none."""
    text = found["name"] or found["before"] or ""
    return normal_name(text[1:-1])


def truth(marker: str) -> bytes:
    """`1` where a marker that can be read holds under all conditions, `0` where it holds under none, and else
    `-`; also where that isn't found out within `bounds`."""
    try:
        return _native.marker_truth(_native.encoded(marker), most_nodes())
    except _native.TooManyNodes:
        return b"-"
