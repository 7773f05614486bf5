#!/usr/bin/env python3
"""Sees that each place that says which version this is says the same one, and that dist/ has what the documents say of it.

    versions.py

The version is that of python/fowlyore/__init__.py. The packages in dist/ are of this version, and whoever installs the wheel has
each name of the Python package and each call of the library for C that the tree has. The last line is `N passed, M failed`, a
place each.
"""

import ast
import glob
import os
import re
import sys
import zipfile

from crates import TOP

NUMBER = r"(\d+(?:\.\d+)+)"
# Each file with what stands before its version, which is there once.
PLACES = (
    ("python/fowlyore/__init__.py", r'^__version__ = "'),
    ("crates/reqs_command/src/request.rt", r'^const VERSION: &str = "'),
    ("rust/fowlyore/Cargo.toml", r'^version = "'),
    ("CHANGELOG.md", r"\A(?:(?!## \[\d).*\n)*## \["),
    ("docs/C.md", r"^    reqs "),
    ("docs/PYTHON.md", r"\bfowlyore-"),
    ("tests/cli.sh", r'"--version" 0 "reqs '),
    ("tests/refused.py", r'b"reqs '),
)
# The packages of a release.
WHEEL = "fowlyore-*.whl"
PACKAGES = (WHEEL, "reqs_*.deb", "libreqs[0-9]*.deb", "libreqs-dev_*.deb")
MODULE, HEADER = "python/fowlyore/__init__.py", "include/reqs.h"
CALL = re.compile(r"\b(reqs_[a-z_]+)\(")


def fault(version, path, before):
    """What is wrong with a place, or None."""
    try:
        with open(os.path.join(TOP, path), encoding="utf-8") as file:
            said = re.findall(before + NUMBER, file.read(), re.M)
    except OSError as error:
        return f"{path} can't be read: {error.strerror}"
    if len(said) != 1:
        return f"{path} has {len(said)} versions after {before!r}, and not one"
    return None if said[0] == version else f"{path} says {said[0]}, and {PLACES[0][0]} {version}"


def package_fault(version, pattern):
    """What is wrong with the one package in dist/ whose name is like this, or None."""
    names = [os.path.basename(it) for it in glob.glob(os.path.join(TOP, "dist", pattern))]
    if len(names) != 1:
        return f"dist/ has {len(names)} packages {pattern}, and not one"
    said = re.search(rf"[-_]{NUMBER}[-_]", names[0])
    return None if said and said[1] == version else f"dist/{names[0]} is not of version {version}: `./pack release` makes it"


def public_names(text):
    """The names that the Python package has for users, by the text of its first module."""
    for node in ast.parse(text).body:
        if isinstance(node, ast.Assign) and [it.id for it in node.targets if isinstance(it, ast.Name)] == ["__all__"]:
            return set(ast.literal_eval(node.value))
    return set()


def lacking_fault(names, what):
    return f"dist/'s wheel lacks {what} {', '.join(sorted(names))}: `./pack release` makes it" if names else None


def wheel_faults():
    """What the wheel in dist/ lacks of the Python package's names and of the calls of the library for C, or None for each."""
    with open(os.path.join(TOP, MODULE), encoding="utf-8") as file:
        wanted = public_names(file.read())
    with open(os.path.join(TOP, HEADER), encoding="utf-8") as file:
        calls = set(CALL.findall(re.sub(r"/\*.*?\*/", "", file.read(), flags=re.S)))
    if not wanted or not calls:
        return [f"{MODULE} has no names, or {HEADER} no calls"] * 2
    try:
        (path,) = glob.glob(os.path.join(TOP, "dist", WHEEL))
        with zipfile.ZipFile(path) as wheel:
            names = public_names(wheel.read("fowlyore/__init__.py").decode())
            library = wheel.read("fowlyore/libreqs.so")
    except (OSError, ValueError, KeyError, zipfile.BadZipFile) as error:
        return [f"the wheel in dist/ can't be read: {error}"] * 2
    there = {it for it in calls if b"\0" + it.encode() + b"\0" in library}
    return [lacking_fault(wanted - names, "the names"), lacking_fault(calls - there, "the calls")]


def main():
    with open(os.path.join(TOP, PLACES[0][0]), encoding="utf-8") as file:
        version = re.search(PLACES[0][1] + NUMBER, file.read(), re.M)[1]
    faults = [fault(version, *it) for it in PLACES]
    faults += [package_fault(version, it) for it in PACKAGES]
    faults += wheel_faults()
    for it in filter(None, faults):
        print(f"FAILED: {it}")
    failed = len(faults) - faults.count(None)
    print(f"{len(faults) - failed} passed, {failed} failed")
    return 1 if failed else 0


if __name__ == "__main__":
    sys.exit(main())
