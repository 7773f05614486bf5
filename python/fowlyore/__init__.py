"""Judges lists of Python requirements, and compares them (PEP 440, PEP 508), by a library whose answers are
proved.

>>> import fowlyore
>>> fowlyore.check(["numpy>=1.26", "numpy<2"], candidates={"numpy": ["1.26.4", "2.0"]})
[Row(name='numpy', extras=(), outcome='1.26.4')]
>>> max(map(fowlyore.Version, ["1.0", "1.0.post1", "1.0rc1"]))
<Version('1.0.post1')>
"""

from ._bounds import bounds
from .assumptions import assumption
from .errors import Refused
from .distributions import installed
from .files import read
from .listings import Assumption, LeftOut, ListedLine, Listing, Place
from .lists import (
    Comparison, Conflict, Covering, InvalidInput, Row, check, conflicts, covers, matrix, matrix_texts, normal, same,
)  # fmt: skip
from .markers import (
    InvalidMarker,
    Marker,
    TooManyClauses,
    TooManyNodes,
    UndefinedComparison,
    UndefinedEnvironmentName,
    default_environment,
)
from .offered import read_candidates, wheelhouse
from .requirements import InvalidRequirement, Requirement
from .specifiers import InvalidSpecifier, Specifier, SpecifierSet
from .urls import MarkerInURLWarning
from .version import InvalidVersion, Version, parse

__version__ = "0.3.0"
__all__ = [
    "Assumption",
    "Comparison",
    "Conflict",
    "Covering",
    "InvalidInput",
    "InvalidMarker",
    "InvalidRequirement",
    "InvalidSpecifier",
    "InvalidVersion",
    "LeftOut",
    "ListedLine",
    "Listing",
    "Marker",
    "MarkerInURLWarning",
    "Place",
    "Refused",
    "Requirement",
    "Row",
    "Specifier",
    "SpecifierSet",
    "TooManyClauses",
    "TooManyNodes",
    "UndefinedComparison",
    "UndefinedEnvironmentName",
    "Version",
    "assumption",
    "bounds",
    "check",
    "conflicts",
    "covers",
    "default_environment",
    "installed",
    "matrix",
    "matrix_texts",
    "normal",
    "parse",
    "read",
    "read_candidates",
    "same",
    "wheelhouse",
]
