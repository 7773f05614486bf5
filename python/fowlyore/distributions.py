"""The distributions that the running interpreter has installed."""

import importlib.metadata
from typing import Any, Dict, List, Optional, Tuple

from .utils import normal_name
from .version import is_version

__all__ = ["installed"]


def installed(left_out: Optional[List[str]] = None) -> List[Tuple[str, str]]:
    """Name and version of each installed distribution, by name; of two with the same name the one that the
    interpreter finds first.

    A name or version that is not valid by PEP 508 and PEP 440 is left out, and added to `left_out`; of metadata
    that can't be read, as that in another encoding than UTF-8, or in which one of both is missing, it is their path.

    >>> from fowlyore import Version
    >>> all(Version(version) for name, version in installed())
    True
    """
    found: Dict[str, Tuple[str, str]] = {}
    for distribution in importlib.metadata.distributions():
        name, version = _name_and_version(distribution)
        key = normal_name(name)
        if key in found:
            continue
        if key and is_version(version):
            found[key] = (name, version)
        elif left_out is not None:
            left_out.append(f"{name} {version}")
    return [found[key] for key in sorted(found)]


def _name_and_version(distribution: importlib.metadata.Distribution) -> Tuple[str, str]:
    """Its name and version; of one whose metadata can't be read, or have no name or version, its path and what is no version."""
    try:
        metadata: Any = distribution.metadata
        name, version = metadata.get("Name"), metadata.get("Version")
        if name is not None and version is not None:
            return str(name), str(version)
    except (AttributeError, KeyError, TypeError, ValueError, OSError):
        pass
    return str(getattr(distribution, "_path", None)), "None"
