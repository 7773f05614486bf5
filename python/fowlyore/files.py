"""The files that requirements stand in: what a file is, its name tells.

| Name | What is read |
|---|---|
| `pyproject.toml` | dependencies, extras, dependency groups (`fowlyore.projects`) |
| `pylock.toml`, `pylock.NAME.toml` | the packages of a lock file (`fowlyore.projects`) |
| `METADATA`, `PKG-INFO`, `*.whl`, `*.tar.gz` | core metadata (`fowlyore.core_metadata`) |
| a folder `*.dist-info` or `*.egg-info` | the core metadata in it |
| a folder of a project | its `pyproject.toml` |
| any other | a requirements file of pip, or a plain list (`fowlyore.pip_files`) |
"""

import importlib.metadata
import os
from typing import NoReturn, Sequence, Union

from . import core_metadata, projects
from .listings import Listing, Place
from .lists import PathLike, read_whole, unread
from .pip_files import read_list, read_pip

__all__ = ["read", "read_text"]

PROJECT = "pyproject.toml"
# What stands for standard input in place of a path.
STANDARD_INPUT = "-"


def read(
    path: Union[str, PathLike, importlib.metadata.Distribution], *, groups: Union[str, Sequence[str]] = ()
) -> Listing:
    """The list that a file has, for the functions on lists; or what an installed distribution requires.
    `groups` are the dependency groups of a `pyproject.toml` whose lines are taken in too, or those of a lock
    file in place of its default ones.

    Raises `InvalidInput` for what can't be read, by its file and line or table, and `OSError` where the file
    can't be.

    >>> import pathlib, tempfile
    >>> path = pathlib.Path(tempfile.mkdtemp(), "requirements.txt")
    >>> _ = path.write_text("--pre\\nfoo>=1 \\\\\\n  --hash=sha256:ab\\n")
    >>> listing = read(path)
    >>> [(it.text, it.place.line) for it in listing.lines], [it.what for it in listing.left_out]
    ([('foo>=1', 2)], ['--pre', '--hash'])
    """
    asked = [groups] if isinstance(groups, str) else list(groups)
    if isinstance(path, importlib.metadata.Distribution):
        listing = core_metadata.read_distribution(path)
        if asked:
            refuse_groups(listing.path)
        return listing
    # (what has a class of its own may print as something else)
    name = str.__str__(os.fsdecode(path))
    if os.path.isdir(name):
        name = _file_of(name.rstrip(os.sep) or name)
    if asked and not has_groups(name):
        refuse_groups(name)
    return _of_kind(name, asked)


def refuse_groups(path: str) -> NoReturn:
    """Refuses to take dependency groups of a file that has none."""
    raise unread(Place(path), f"dependency groups are read of a {PROJECT} or a lock file alone")


def has_groups(path: str) -> bool:
    """Whether dependency groups are read of a file, or of a folder."""
    name = os.path.basename(path)
    return name == PROJECT or projects.is_lock(name) or os.path.isfile(os.path.join(path, PROJECT))


def _file_of(folder: str) -> str:
    """What stands for a folder: itself, of an installed distribution, or the file of a project in it."""
    if folder.endswith((".dist-info", ".egg-info")):
        return folder
    path = os.path.join(folder, PROJECT)
    if not os.path.isfile(path):
        raise unread(Place(folder), f"a folder without a {PROJECT}, and none of an installed distribution")
    return path


def _of_kind(path: str, groups: Sequence[str]) -> Listing:
    """The list of a file, or of a folder of an installed distribution."""
    name = os.path.basename(path)
    if os.path.isdir(path):
        return core_metadata.read_folder(path)
    if name.endswith(".whl"):
        return core_metadata.read_wheel(path)
    if name.endswith(".tar.gz"):
        return core_metadata.read_archive(path)
    with open(path, "rb") as file:
        if name == PROJECT:
            return projects.read_project(path, read_whole(path, file), groups)
        if projects.is_lock(name):
            return projects.read_lock(path, read_whole(path, file), groups)
        if name in ("METADATA", "PKG-INFO") or name.endswith(".egg-info"):
            return core_metadata.read_metadata(path, core_metadata.read_some(path, file))
        return read_pip(path, read_list(path, file))


def read_text(data: bytes) -> Listing:
    """The list of a requirements file of pip, or of a plain list, that stands on standard input. Files that
    it names are looked for in the working folder."""
    return read_pip(STANDARD_INPUT, data)
