"""Why a row of `check` is `none`: which lines refuse the greatest candidates."""

import itertools
import re
from bisect import bisect_left, bisect_right
from dataclasses import dataclass
from operator import attrgetter, itemgetter
from typing import Dict, Iterable, Iterator, List, NamedTuple, Optional, Sequence, Set, Tuple, TypeVar

from . import _native
from .lists import (
    Candidates, Environment, Extras, Input, Requirements, Row, answered, candidates_input, environment_input, extras_input,
    requirements_input, rows_checked, rows_of,
)  # fmt: skip
from .specifiers import InvalidSpecifier, Specifier, SpecifierSet
from .version import Version

__all__ = ["Explanation", "Line", "Refusal", "check_explained", "explain"]

# Of how many candidates, and of how many lines in a sentence, each is named.
NAMED = 3
# How many characters of lines one call is asked of, in which there are at most 16 MiB.
BATCH = 1 << 21
# At least as many characters as a package name takes in a call, with those around it.
NAME_ROOM = 10
# How many times more candidates a line is asked about in each round than in the one before.
GROWTH = 8
Asked = TypeVar("Asked")
# The greatest number in a version.
_GREATEST = (1 << 64) - 1
# The name at the front of a requirement, and name and version on the line of a candidate.
_NAME = re.compile(r"\s*([A-Za-z0-9](?:[A-Za-z0-9._-]*[A-Za-z0-9])?)")
_CANDIDATE = re.compile(r"^[^\S\n]*([A-Za-z0-9._-]+)[^\S\n]+([^\s#]+)", re.M)
# The specifiers after a requirement's name.
_SPECIFIERS = re.compile(r"\s*(?:\[[^\]]*\])?\s*\(?([^;#)]*)")


class Line(NamedTuple):
    """A line of a list: its number, from 1, and its text without white space around it. Of a list that `read` has read, and that
    isn't plain, the number counts the list's `lines`, and `place` says where the line came from."""

    number: int
    text: str
    place: str = ""

    def __str__(self) -> str:
        return f"{self.place or f'line {self.number}'} ({self.text})"


class Refusal(NamedTuple):
    """A candidate, and the lines that refuse it."""

    version: Version
    lines: Tuple[Line, ...]


@dataclass(frozen=True)
class Explanation:
    """Why a package has no version.

    Its lines are those of the list that apply in the environment with the extras, and require it. A line
    *accepts* a candidate if `check` of two lines, this one and `NAME>=0.dev0`, and of this one candidate
    selects it, and *refuses* it if that returns `none`. (All versions are accepted by `>=0.dev0`, and it
    names a pre-release, so that pre-releases are let in.) So the values claim no more than this:

    - `greatest`: the greatest candidate, None if there is none; of equal ones the first.
    - `candidates`: how many candidates there are; of several with the same normal text one counts.
    - `lines_without_candidate`: the lines that accept none of the candidates.
    - `refusals`: if each line accepts some candidate, those of the three greatest ones that some line
      refuses, the greatest first, each with all lines that refuse it.
    - `prerelease`: the greatest candidate that all lines accept. It is a pre-release or a developmental
      release, and no line has a specifier with such a version, or else `check` would select it. None if each
      candidate is refused by some line.
    """

    name: str
    greatest: Optional[Version] = None
    candidates: int = 0
    lines_without_candidate: Tuple[Line, ...] = ()
    refusals: Tuple[Refusal, ...] = ()
    prerelease: Optional[Version] = None

    @property
    def sentences(self) -> List[str]:
        """The values in words, one sentence per line; values without content have none."""
        if self.greatest is None:
            return ["there is no candidate of this name"]
        if self.lines_without_candidate:
            verb = "accepts" if len(self.lines_without_candidate) == 1 else "accept"
            return [f"{_listed(self.lines_without_candidate)} {verb} no candidate; the greatest is {self.greatest}"]
        said = [f"{version} is refused by {_listed(lines)}" for version, lines in self.refusals]
        too = ""
        if self.prerelease is not None:
            said.append(f"{self.prerelease} is accepted by all lines, but it is a pre-release, and no line names one")
            too = ", or is such a pre-release too"
        others = self.candidates - len(said)
        if others:
            those = f"each of the {others} other candidates" if others > 1 else "the other candidate"
            said.append(f"{those} is refused by some line{too}")
        return said

    def __str__(self) -> str:
        return "\n".join(self.sentences)


def _listed(lines: Sequence[Line]) -> str:
    """Some lines in words, the first of them with their texts."""
    words = [str(it) for it in lines[:NAMED]]
    left = len(lines) - len(words)
    if left:
        words.append(f"{left} more lines" if left > 1 else "one more line")
    return f"{', '.join(words[:-1])} and {words[-1]}" if len(words) > 1 else words[0]


class _Asking(NamedTuple):
    """A line that requires a package, and its text after the package's name."""

    line: Line
    rest: str

    @property
    def number(self) -> int:
        """The line's number."""
        return self.line.number

    def of(self, name: str) -> str:
        """A line with this requirement on another package."""
        return f"{name}{self.rest}\n"


class _Offer(NamedTuple):
    """Some lines, and the candidates that they are offered."""

    lines: Sequence[_Asking]
    versions: Sequence[Version]

    @property
    def size(self) -> int:
        """At least as many characters as are asked."""
        texts = sum(len(it.rest) for it in self.lines) + sum(len(str(it)) for it in self.versions)
        return texts + NAME_ROOM * (len(self.lines) + len(self.versions) + 2)

    def parts(self) -> Iterator["_Offer"]:
        """Offers of the same lines and of some of the candidates each, in their order, which are no more than a call takes."""
        begin = size = 0
        for at, it in enumerate(self.versions):
            more = len(str(it)) + NAME_ROOM
            if size + more > BATCH and at > begin:
                yield _Offer(self.lines, self.versions[begin:at])
                begin, size = at, 0
            size += more
        yield _Offer(self.lines, self.versions[begin:])

    def lines_of(self, name: str) -> str:
        """The lines as those of a package, with one that accepts all versions and lets pre-releases in: it
        names the lowest of all versions."""
        return "".join(it.of(name) for it in self.lines) + f"{name}>=0.dev0\n"

    def candidates_of(self, name: str) -> str:
        """The candidates as those of a package."""
        return "".join(f"{name} {it}\n" for it in self.versions)


@dataclass(frozen=True)
class _Question:
    """The environment and the extras of all queries: what decides which lines apply."""

    environment: Input
    extras: Input

    def outcomes(self, offers: Iterable[_Offer]) -> Iterator[Tuple[_Offer, Row]]:
        """Each offer with its row: the greatest candidate that all of its lines accept, except for those that don't
        apply; of an offer of several parts that of the first part in which there is one."""
        for whole, those in itertools.groupby(self._outcomes_of_parts(offers), itemgetter(0)):
            rows = [row for _, row in those]
            yield whole[1], next((it for it in rows if not it.is_none), rows[0])

    def _outcomes_of_parts(self, offers: Iterable[_Offer]) -> Iterator[Tuple[Tuple[int, _Offer], Row]]:
        """Each part of each offer, which has a number, with its row. In a call each is made under a package name of its own."""
        parts = ((whole, it) for whole in enumerate(offers) for it in whole[1].parts())
        for batch in _batches(parts):
            numbered = [(str(at), it) for at, (_, it) in enumerate(batch)]
            asked = Input("requirements", "".join(it.lines_of(name) for name, it in numbered).encode())
            offered = Input("candidates", "".join(it.candidates_of(name) for name, it in numbered).encode())
            rows = rows_of(answered(_native.check, asked, self.environment, offered, self.extras))
            by_name = {it.name: it for it in rows}
            yield from ((whole, by_name[str(at)]) for at, (whole, _) in enumerate(batch))

    def refusing(self, offers: Iterable[Tuple[_Asking, Sequence[Version]]]) -> Set[int]:
        """The numbers of the lines that accept none of the candidates that each is offered. A line that
        doesn't apply accepts all."""
        each = (_Offer([line], versions) for line, versions in offers)
        return {it.lines[0].number for it, row in self.outcomes(each) if row.is_none}


def _batches(parts: Iterable[Tuple[Asked, _Offer]]) -> Iterator[List[Tuple[Asked, _Offer]]]:
    """Offers, and what they are parts of, in groups, each of which fits into one call."""
    batch: List[Tuple[Asked, _Offer]] = []
    size = 0
    for whole, it in parts:
        more = it.size
        if size + more > BATCH and batch:
            yield batch
            batch, size = [], 0
        batch.append((whole, it))
        size += more
    if batch:
        yield batch


def explain(
    requirements: Requirements,
    environment: Environment = None,
    candidates: Candidates = None,
    extras: Extras = (),
    *,
    ignore_requires_python: bool = False,
) -> List[Explanation]:
    """For each row of `check` that is `none`, by name, the reason; the arguments are those of `check`.

    The time is about linear in lines and candidates. In addition to the library's call for `check` a few
    calls are made over the lines of all such packages together: one for each of the three greatest
    candidates, and one with all candidates. Lines that refuse these three are tested with a few others, of
    which those within the bounds of a line's specifiers alone can be accepted: for `foo==1.2` these are 1.2
    and its local versions.

    >>> for it in explain(["foo!=2.1", "foo>=1", "foo<2,!=1.5"], candidates={"foo": ["0.9", "1.5", "2.1"]}):
    ...     print(it)
    2.1 is refused by line 1 (foo!=2.1) and line 3 (foo<2,!=1.5)
    1.5 is refused by line 3 (foo<2,!=1.5)
    0.9 is refused by line 2 (foo>=1)
    >>> print(*explain(["foo>=1", "foo>=3"], candidates={"foo": ["0.9", "2.1"]}))
    line 2 (foo>=3) accepts no candidate; the greatest is 2.1
    """
    return check_explained(
        requirements, environment, candidates, extras, ignore_requires_python=ignore_requires_python
    )[1]  # fmt: skip


def check_explained(
    requirements: Requirements,
    environment: Environment = None,
    candidates: Candidates = None,
    extras: Extras = (),
    *,
    ignore_requires_python: bool = False,
) -> Tuple[List[Row], List[Explanation]]:
    """The rows of `check`, and the explanations of `explain`; each input is read once."""
    inputs = (
        requirements_input(requirements), environment_input(environment), candidates_input(candidates),
        extras_input(extras),
    )  # fmt: skip
    rows = rows_checked(inputs, ignore_requires_python)
    names = [it.name for it in rows if it.is_none]
    if not names:
        return rows, []
    lines = _lines_of(inputs[0], names)
    versions = _versions_of(inputs[2].text.decode(), names)
    return rows, _explanations(lines, versions, _Question(inputs[1], inputs[3]))


def _normal(name: str) -> str:
    """The normal form of a name (PEP 503)."""
    return re.sub("[-_.]+", "-", name).lower()


def _lines_of(given: Input, names: List[str]) -> Dict[str, List[_Asking]]:
    """The lines that require these packages, whether they apply or not; the list is one that `check` has
    read."""
    found: Dict[str, List[_Asking]] = {it: [] for it in names}
    for number, line in enumerate(given.text.decode().split("\n"), 1):
        name = _NAME.match(line)
        of_name = None if name is None else found.get(_normal(name[1]))
        if name is not None and of_name is not None:
            of_name.append(_Asking(_line_of(given, number, line), line[name.end() :]))
    return found


def _line_of(given: Input, number: int, text: str) -> Line:
    if given.listing is None:
        return Line(number, text.strip())
    place = given.listing.place(number)
    return Line(number, text.strip(), place.within if place.path == given.listing.path else str(place))


def _versions_of(text: str, names: List[str]) -> Dict[str, List[Version]]:
    """The candidates of these names, the greatest first, equal ones in their order; those with the same
    normal text once."""
    found: Dict[str, Dict[str, Version]] = {it: {} for it in names}
    for name, given in _CANDIDATE.findall(text):
        of_name = found.get(_normal(name))
        if of_name is not None:
            version = Version(given)
            of_name.setdefault(str(version), version)
    return {name: sorted(it.values(), key=attrgetter("_key"), reverse=True) for name, it in found.items()}


def _explanations(
    lines: Dict[str, List[_Asking]], versions: Dict[str, List[Version]], question: _Question
) -> List[Explanation]:
    """The explanation of each package, by its lines and its candidates."""
    refusing = [question.refusing(_of_rank(it, lines, versions)) for it in range(NAMED)]
    without = _without_candidate(lines, versions, refusing, question)
    open_names = [it for it in lines if versions[it] and not without[it]]
    offers = (_Offer(lines[it], versions[it]) for it in open_names)
    accepted = dict(zip(open_names, (row.version for _, row in question.outcomes(offers))))
    found = []
    for name, of_name in versions.items():
        if not of_name:
            found.append(Explanation(name))
        elif without[name]:
            found.append(Explanation(name, of_name[0], len(of_name), without[name]))
        else:
            refusals = tuple(_refusals(lines[name], of_name, refusing))
            found.append(Explanation(name, of_name[0], len(of_name), (), refusals, accepted[name]))
    return found


def _of_rank(
    rank: int, lines: Dict[str, List[_Asking]], versions: Dict[str, List[Version]]
) -> Iterator[Tuple[_Asking, Sequence[Version]]]:
    """Each line with its package's candidate of a rank, from 0 for the greatest, where there is one."""
    for name, of_name in lines.items():
        if rank < len(versions[name]):
            yield from ((it, versions[name][rank : rank + 1]) for it in of_name)


def _refusals(lines: List[_Asking], versions: List[Version], refusing: List[Set[int]]) -> Iterator[Refusal]:
    """The greatest candidates that some line refuses."""
    for version, numbers in zip(versions, refusing):
        those = tuple(it.line for it in lines if it.number in numbers)
        if those:
            yield Refusal(version, those)


def _without_candidate(
    lines: Dict[str, List[_Asking]],
    versions: Dict[str, List[Version]],
    refusing: List[Set[int]],
    question: _Question,
) -> Dict[str, Tuple[Line, ...]]:
    """For each package the lines that refuse the greatest candidates and the others too."""
    refused: Dict[str, List[_Asking]] = {}
    left: Dict[_Asking, List[_Left]] = {}
    for name, of_name in lines.items():
        of_ranks = refusing[: len(versions[name])]
        refused[name] = [it for it in of_name if all(it.number in those for those in of_ranks)]
        kinds = _kinds(versions[name][: NAMED - 1 : -1]) if refused[name] else []
        for line in refused[name] if kinds else ():
            specifiers = _specifiers_of(line)
            left[line] = [_Left(it, _within(specifiers, it)) for it in kinds]
    accepting = _accepting(left, question)
    return {name: tuple(it.line for it in of if it.number not in accepting) for name, of in refused.items()}


def _accepting(left: Dict[_Asking, List["_Left"]], question: _Question) -> Set[int]:
    """The numbers of the lines that accept some of the candidates that are left to each. A line is tested
    with the greatest one of each kind, and if these are refused with more and more of those below."""
    found: Set[int] = set()
    count = 1
    while left:
        each = ((line, [at for it in those for at in it.greatest(count)]) for line, those in left.items())
        offers = [(line, versions) for line, versions in each if versions]
        refused = question.refusing(offers)
        found.update(line.number for line, _ in offers if line.number not in refused)
        left = {line: left[line] for line, _ in offers if line.number in refused}
        count *= GROWTH
    return found


class _Kind(NamedTuple):
    """Candidates of one package, rising, which specifiers accept by the same rules: all or none of them are
    pre-releases (or developmental releases), and all or none post-releases. `public` has them without their
    local parts, of which most specifiers see nothing; so it rises too."""

    is_prerelease: bool
    is_postrelease: bool
    versions: List[Version]
    public: List[Version]


def _kinds(rising: Sequence[Version]) -> List[_Kind]:
    """Candidates by their kinds."""
    found: Dict[Tuple[bool, bool], _Kind] = {}
    for it in rising:
        key = it.is_prerelease, it.is_postrelease
        kind = found.setdefault(key, _Kind(*key, [], []))
        kind.versions.append(it)
        kind.public.append(Version(it.public) if "+" in str(it) else it)
    return list(found.values())


class _Left:
    """The candidates of a kind that a line may accept, as ranges of indices that rise, less those that were
    taken."""

    def __init__(self, kind: _Kind, ranges: List[range]) -> None:
        self._kind, self._ranges = kind, ranges

    def greatest(self, count: int) -> List[Version]:
        """Takes some of the greatest ones."""
        taken: List[Version] = []
        while self._ranges and len(taken) < count:
            last = self._ranges.pop()
            begin = max(last.start, last.stop - (count - len(taken)))
            taken += self._kind.versions[begin : last.stop]
            if begin > last.start:
                self._ranges.append(range(last.start, begin))
        return taken


def _specifiers_of(line: _Asking) -> List[Specifier]:
    """The specifiers of a line, and none if they can't be read."""
    given = _SPECIFIERS.match(line.rest)
    try:
        return list(SpecifierSet(given[1] if given else ""))
    except InvalidSpecifier:
        return []


def _within(specifiers: Sequence[Specifier], kind: _Kind) -> List[range]:
    """The indices of the candidates of a kind that the specifiers may accept, as ranges that rise."""
    low, high = 0, len(kind.versions)
    holes = []
    for it in specifiers:
        span = _span(it, kind)
        if it.operator == "!=":
            holes.append(span)
        else:
            low, high = max(low, span.start), min(high, span.stop)
    found = []
    for hole in sorted(holes, key=attrgetter("start")):
        if low < min(hole.start, high):
            found.append(range(low, min(hole.start, high)))
        low = max(low, hole.stop)
    return [*found, range(low, high)] if low < high else found


def _span(specifier: Specifier, kind: _Kind) -> range:
    """The indices of the candidates of a kind that a specifier accepts, or that it refuses if its operator is
    `!=` (PEP 440, Version specifiers). What `===` accepts is in its span."""
    operator, named, public = specifier.operator, Version(specifier._without_star()), kind.public
    if specifier.version.endswith(".*"):
        return range(bisect_left(public, Version(f"{named}.dev0")), _end_of(named.epoch, named.release, public))
    if operator in ("==", "!=", "==="):
        equal = kind.versions if operator == "===" or named.local else public
        return range(bisect_left(equal, named), bisect_right(equal, named))
    if operator == "~=":
        return range(bisect_left(public, named), _end_of(named.epoch, named.release[:-1], public))
    if operator == ">=":
        return range(bisect_left(public, named), len(public))
    if operator == "<=":
        return range(0, bisect_right(public, named))
    return _exclusive_span(operator, named, kind)


def _exclusive_span(operator: str, named: Version, kind: _Kind) -> range:
    """The span of `<`, which accepts no pre-release of a release that it names, unless that is one; or of
    `>`, which accepts no post-release of it, unless it names one (PEP 440, Exclusive ordered comparison)."""
    if operator == "<":
        is_whole = kind.is_prerelease and not named.is_prerelease
        end = Version(f"{named.base_version}.dev0") if is_whole else named
        return range(0, bisect_left(kind.public, end))
    is_whole = kind.is_postrelease and not named.is_postrelease
    last = Version(f"{named.base_version}.post{_GREATEST}") if is_whole else named
    return range(bisect_right(kind.public, last), len(kind.public))


def _end_of(epoch: int, release: Sequence[int], public: List[Version]) -> int:
    """The index after the versions whose release begins with some numbers, or after all versions if none can
    be above these."""
    numbers = list(release)
    while numbers and numbers[-1] == _GREATEST:
        numbers.pop()
    if numbers:
        numbers[-1] += 1
        return bisect_left(public, Version(f"{epoch}!{'.'.join(map(str, numbers))}.dev0"))
    return len(public) if epoch == _GREATEST else bisect_left(public, Version(f"{epoch + 1}!0.dev0"))
