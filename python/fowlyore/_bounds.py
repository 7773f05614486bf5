"""Bounds on what calls make of markers and of lists."""

import enum
import operator
from typing import Optional, Union

from .errors import told

__all__ = ["Bounds", "Most", "USUAL", "bounds", "most_cases", "most_clauses", "most_nodes"]

# What the library takes for no bound; a bound beyond it is none either.
NO_BOUND = (1 << 64) - 1


class Usual(enum.Enum):
    """What stands for the bound in `bounds`."""

    USUAL = "the one in fowlyore.bounds"

    def __repr__(self) -> str:
        return "USUAL"


USUAL = Usual.USUAL
Most = Union[None, int, Usual]


def _checked(number: Optional[int]) -> Optional[int]:
    if number is None:
        return None
    number = int(operator.index(number))
    if number < 0:
        raise ValueError(f"a bound is a number from 0 on or None, not {told(number)}")
    return number


class Bounds:
    """How much a call may make of markers and of lists before it gives up. A call that compares or changes markers
    makes decision trees of them, which may have exponentially more nodes than the markers have comparisons: with more
    than `nodes` it raises `TooManyNodes`. One that writes a marker makes clauses with `or` between them, of which there
    may be exponentially more than nodes: with more than `clauses` it raises `TooManyClauses`. One on a list makes the
    cases of its packages: with more than `cases` in all it raises `InvalidInput`. None is no bound.

    A bound that is set here is that of each later call, in all threads, that isn't given one by `nodes=`, `clauses=` or
    `cases=`.

    >>> import fowlyore
    >>> fowlyore.bounds
    Bounds(nodes=1000000, clauses=100000, cases=None)
    """

    __slots__ = ("_nodes", "_clauses", "_cases")

    def __init__(
        self, nodes: Optional[int] = 1_000_000, clauses: Optional[int] = 100_000, cases: Optional[int] = None
    ) -> None:
        self.nodes = nodes
        self.clauses = clauses
        self.cases = cases

    @property
    def nodes(self) -> Optional[int]:
        """How many nodes the trees of a call's markers may have together, those of a list's lines among them."""
        return self._nodes

    @nodes.setter
    def nodes(self, number: Optional[int]) -> None:
        self._nodes = _checked(number)

    @property
    def clauses(self) -> Optional[int]:
        """How many clauses a marker may be written of, before they are simplified."""
        return self._clauses

    @clauses.setter
    def clauses(self, number: Optional[int]) -> None:
        self._clauses = _checked(number)

    @property
    def cases(self) -> Optional[int]:
        """How many cases all packages of a list may have together, where each may have as many as a call's `limit`."""
        return self._cases

    @cases.setter
    def cases(self, number: Optional[int]) -> None:
        self._cases = _checked(number)

    def __repr__(self) -> str:
        return f"Bounds(nodes={told(self.nodes)}, clauses={told(self.clauses)}, cases={told(self.cases)})"


bounds = Bounds()


def _number(most: Optional[int]) -> int:
    return NO_BOUND if most is None else min(most, NO_BOUND)


def most_nodes(given: Most = USUAL) -> int:
    """How many nodes a call may make, as the number that the library gets."""
    return _number(bounds.nodes if isinstance(given, Usual) else _checked(given))


def most_clauses(given: Most = USUAL) -> int:
    """How many clauses a call may make, as the number that the library gets."""
    return _number(bounds.clauses if isinstance(given, Usual) else _checked(given))


def most_cases(given: Most = USUAL) -> int:
    """How many cases a call may make in all, as the number that the library gets."""
    return _number(bounds.cases if isinstance(given, Usual) else _checked(given))
