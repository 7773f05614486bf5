#!/usr/bin/env python3
"""Writes what `reqs check` asks of a Python interpreter, for the one that runs
this.

FOLDER, here where none is named, gets `environment.json`, the values that
markers are held against, and `candidates.txt`, the name and version of each
distribution that is installed, as `pip list` shows them. What PEP 440 or PEP
508 can't read is left out, with a word on standard error. The status is 0, or
2 where a word is no option and where a file can't be written.
"""

import argparse
import importlib.metadata
import json
import os
import platform
import re
import sys

NAME = re.compile(r"[A-Z0-9](?:[A-Z0-9._-]*[A-Z0-9])?", re.I | re.A)

# PEP 440, Appendix B.
VERSION = re.compile(
    r"""v?(?:(?P<epoch>[0-9]+)!)?(?P<release>[0-9]+(?:\.[0-9]+)*)
    (?P<pre>[-_.]?(?P<kind>alpha|a|beta|b|preview|pre|c|rc)[-_.]?[0-9]*)?
    (?P<post>-[0-9]+|[-_.]?(?:post|rev|r)[-_.]?[0-9]*)?
    (?P<dev>[-_.]?dev[-_.]?[0-9]*)?
    (?P<local>\+[a-z0-9]+(?:[-_.][a-z0-9]+)*)?""",
    re.I | re.A | re.X,
)


def is_version(text):
    """Whether it is a version whose numbers fit into 64 bits, as `reqs` wants them."""
    found = VERSION.fullmatch(text)
    if not found:
        return False
    public = text[: found.start("local")] if found["local"] else text
    numbers = (digits.lstrip("0") or "0" for digits in re.findall("[0-9]+", public))
    return all(len(number) <= 20 and int(number) < 2**64 for number in numbers)


def full_version():
    """The interpreter's version, but of a pre-release, as 3.14.0rc1, the release, and without a local part.

    `reqs` compares `python_version` by it too, which is 3.14 then, and 3.14.0rc1 is less than that. A build that isn't
    tagged, as `3.14.0a0+`, ends in an empty local part.
    """
    python = platform.python_version()
    found = VERSION.fullmatch(python.rstrip("+"))
    if not found:
        return python
    written = found["release"] if found["pre"] or found["dev"] else found[0][: len(found[0]) - len(found["local"] or "")]
    if written != python:
        print(f"installed.py: python_full_version is {python}, {written} is written", file=sys.stderr)
    return written


def environment():
    """The members of PEP 508, "Environment Markers"."""
    implementation = sys.implementation
    version = implementation.version
    full = "%d.%d.%d" % version[:3]
    if version[3] != "final":
        full += version[3][0] + str(version[4])
    python = full_version()
    return {
        "implementation_name": implementation.name,
        "implementation_version": full,
        "os_name": os.name,
        "platform_machine": platform.machine(),
        "platform_python_implementation": platform.python_implementation(),
        "platform_release": platform.release(),
        "platform_system": platform.system(),
        "platform_version": platform.version(),
        "python_full_version": python,
        "python_version": ".".join(platform.python_version_tuple()[:2]),
        "sys_platform": sys.platform,
    }


def candidates():
    """A line for each distribution; of two of one name the first that the interpreter finds."""
    lines = {}
    for found in importlib.metadata.distributions():
        try:
            name, version = found.metadata["Name"], found.version
        except (AttributeError, KeyError, TypeError, ValueError, OSError):
            name, version = None, None  # its metadata can't be read
        key = re.sub("[-_.]+", "-", str(name)).lower()
        if key in lines:
            continue
        if name and version and NAME.fullmatch(name) and is_version(version):
            lines[key] = f"{name} {version}\n"
        else:
            print(f"installed.py: {name} {version} is left out", file=sys.stderr)
    return [lines[key] for key in sorted(lines)]


def write(folder, name, text):
    path = os.path.join(folder, name)
    try:
        with open(path, "w", encoding="utf-8") as file:
            file.write(text)
    except OSError as error:
        print(f"installed.py: {path}: {error.strerror}", file=sys.stderr)
        sys.exit(2)


def main():
    words = argparse.ArgumentParser(
        prog="installed.py", description=__doc__, formatter_class=argparse.RawDescriptionHelpFormatter
    )
    words.add_argument("folder", nargs="?", default=".", metavar="FOLDER", help="where both files go")
    folder = words.parse_args().folder
    if not os.path.isdir(folder):
        words.error(f"no folder: {folder!r}")
    write(folder, "environment.json", json.dumps(environment(), indent=2) + "\n")
    write(folder, "candidates.txt", "".join(candidates()))


if __name__ == "__main__":
    main()
