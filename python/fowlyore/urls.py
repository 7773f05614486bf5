"""The warning of a URL that ends in what was meant as a marker."""

import sys
import warnings
from typing import Optional

from . import _native

__all__ = ["MarkerInURLWarning"]

# What is longer isn't looked at: reading a long marker may take long, and one at the end of a URL by mistake is short.
_LONGEST = 256


class MarkerInURLWarning(UserWarning):
    """A requirement's URL has a `;` in it and a marker after that, as in
    `foo @ https://e.org/x.whl;os_name == 'nt'`. The requirement is read with this URL and without a marker,
    and so it applies everywhere. To get the marker, write white space before its `;` (PEP 508, Grammar:
    `url_req`)."""


def marker_in(url: str) -> Optional[str]:
    """The text after the first `;` of a URL, or else after the last one, if the library reads a marker of at
    most 256 characters there; otherwise None.

    >>> marker_in("https://e.org/x.whl;os_name == 'nt'"), marker_in("https://e.org/x;v=1")
    ("os_name == 'nt'", None)
    """
    if ";" not in url:
        return None
    texts = (url.partition(";")[2], url.rpartition(";")[2])
    return next((it for it in texts if len(it) <= _LONGEST and _is_marker(it)), None)


def _is_marker(text: str) -> bool:
    try:
        _native.marker_check(_native.encoded(text))
    except _native.Fault:
        return False
    return True


def warn_of_marker_in(url: str, place: str = "", written: Optional[str] = None) -> None:
    """Warns if the URL of a requirement without a marker ends in one. The warning is attributed to the code
    that called this package. It shows the URL as it was written, if that is given: without the values of variables,
    which may be secret."""
    marker = marker_in(url)
    if marker is not None:
        written = url if written is None else written
        # (a marker that has a value of a variable in it isn't shown)
        advice = f"write ' ;{marker}', with" if written.endswith(f";{marker}") else "write its marker with"
        said = f"{place}{written!r} is a URL without a marker after it: {advice} white space before the ';'"
        warnings.warn(said, MarkerInURLWarning, stacklevel=_calls_within() + 1)


def _calls_within() -> int:
    """The number of stack frames of this package from this function's caller on, including that one."""
    count, frame = 1, sys._getframe(1).f_back
    while frame is not None and str(frame.f_globals.get("__name__", "")).startswith(f"{__package__}."):
        count, frame = count + 1, frame.f_back
    return count
