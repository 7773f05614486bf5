"""What is assumed of environments, as a marker."""

from typing import Optional, Union

from . import _native
from .markers import Marker
from .specifiers import Specifier, SpecifierSet

__all__ = ["assumption"]


def assumption(
    marker: Union[None, str, Marker] = None, python: Union[None, str, Specifier, SpecifierSet] = None, real: bool = False
) -> Optional[Marker]:
    """The marker that holds where all that is assumed does, for `assume` of `same`, `covers` and `conflicts`, as the
    options `--assume`, `--python` and `--assume-real` of `reqs` join it; None if nothing is assumed.

    `marker` is a marker or its text, and `python` specifiers that accept `python_full_version`, or their text. With
    `real` the keys `os_name`, `sys_platform` and `platform_system` say together that it is Windows, Linux or macOS, or
    none of them says so, as in CPython, PyPy and GraalPy.

    Raises `InvalidMarker` for a text that is no marker, and for a specifier with `===`, which no marker has;
    `InvalidSpecifier` for a text that is no list of specifiers.

    >>> str(assumption(python=">=3.9,<3.13"))
    "python_full_version >= '3.9' and python_full_version < '3.13'"
    >>> from fowlyore import conflicts
    >>> lines = ["foo>=2 ; sys_platform == 'win32'", "foo<2 ; os_name == 'posix'"]
    >>> conflicts(lines), conflicts(lines, assume=assumption(real=True))
    ([Conflict(name='foo', lines=(1, 2), names_prerelease=False)], [])
    """
    given = marker if marker is None or isinstance(marker, Marker) else Marker(marker)
    accepted = python if python is None or isinstance(python, (Specifier, SpecifierSet)) else SpecifierSet(python)
    texts = b"" if given is None else given._bytes(), b"" if accepted is None else accepted._bytes
    text = _native.assumption(*texts, bool(real))
    return Marker(text) if text else None
