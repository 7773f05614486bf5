#!/usr/bin/env python3
"""Writes the candidates of one package for `reqs check`, made from its page in
a package index, to standard output.

The page is the JSON of the index's simple interface (PEP 691), as
`https://pypi.org/simple/NAME/` gives it where
`application/vnd.pypi.simple.v1+json` is accepted, on standard input. A version
is a candidate where a file of it, an sdist or a wheel, stands there that isn't
yanked; it is spelled as in the member `versions` (PEP 700), or else as in the
file's name. Files that are yanked, that are no sdist and no wheel of the
package, and what PEP 440 can't read, are left out, and so are versions without
a file that is left; each is named on standard error. Which files an
interpreter can use is not looked at.

The status is 0, or 2 where standard input is no such page, and then nothing is
written.
"""

import argparse
import json
import re
import sys

sys.dont_write_bytecode = True  # so that nothing is written beside this file

from installed import NAME as PACKAGE_NAME
from installed import VERSION, is_version

NAME = "candidates.py"
SDIST = re.compile(r"(.+)\.(?:zip|t[gbxl]z|tar|tar\.(?:gz|bz2|xz|lz|lzma))", re.I)
WHEEL = re.compile(r"([^-]+)-([^-]+)(?:-[0-9][^-]*)?-[^-]+-[^-]+-[^-]+\.whl", re.I)
KINDS = {"alpha": "a", "beta": "b", "c": "rc", "pre": "rc", "preview": "rc"}


class Refused(Exception):
    """Why there are no candidates."""


def tell(text):
    print(f"{NAME}: {text}", file=sys.stderr)


def normal_name(name):
    return re.sub("[-_.]+", "-", name).lower()


def plain(digits):
    """A number by its digits, however many there are."""
    return digits.lstrip("0") or "0"


def key(version):
    """What equal versions have in common (PEP 440, "Normalization"), however they are written."""
    parts = VERSION.fullmatch(version.lower())
    release = [plain(number) for number in parts["release"].split(".")]
    while release[-1] == "0" and len(release) > 1:
        release.pop()
    suffixes = [parts[it] and plain("".join(re.findall("[0-9]", parts[it]))) for it in ("pre", "post", "dev")]
    kind = KINDS.get(parts["kind"], parts["kind"])
    segments = re.split("[-_.]", (parts["local"] or "+")[1:])
    local = [plain(segment) if segment.isdigit() else segment for segment in segments]
    return plain(parts["epoch"] or ""), tuple(release), kind, tuple(suffixes), tuple(local)


def version_of(filename, package):
    """The version in the name of a package's sdist or wheel, or nothing."""
    wheel, sdist = WHEEL.fullmatch(filename), SDIST.fullmatch(filename)
    if wheel:
        found = wheel[2].replace("_", "-") if normal_name(wheel[1]) == package else ""
    else:
        words = sdist[1].split("-") if sdist else []
        places = (at for at in range(1, len(words)) if normal_name("-".join(words[:at])) == package)
        found = "-".join(words[next(places, len(words)) :])
    return found if is_version(found) else None


def member(page, name, kind):
    value = page.get(name) if isinstance(page, dict) else None
    if not isinstance(value, kind):
        raise Refused(f"no page of a package index: member {name} is missing or of another form")
    return value


def read_page():
    try:
        with open(0, "rb", closefd=False) as file:
            page = json.loads(file.read().decode("utf-8"))
    except OSError as error:
        raise Refused(f"standard input: {error.strerror}") from None
    except (ValueError, RecursionError) as error:
        raise Refused(f"standard input is no JSON: {error}") from None
    name = member(page, "name", str)
    if not PACKAGE_NAME.fullmatch(name):
        raise Refused(f"no name of a package: {name}")
    meta = page.get("meta")
    version = meta.get("api-version", "1.0") if isinstance(meta, dict) else "1.0"
    if not str(version).startswith("1."):
        raise Refused(f"a page of version {version}, and not 1")
    return page, name


def found_versions(page, name):
    """The versions of the files that are taken, in their first spelling, by what equal ones share."""
    found = {}
    for file in member(page, "files", list):
        filename = member(file, "filename", str)
        version = version_of(filename, normal_name(name))
        if file.get("yanked"):
            tell(f"left out: {filename}, which is yanked")
        elif version is None:
            tell(f"left out: {filename}, which is no sdist or wheel of a version of {name}")
        else:
            found.setdefault(key(version), version)
    return found


def candidates(page, name):
    found = found_versions(page, name)
    if "versions" in page:
        listed = member(page, "versions", list)
        if not all(isinstance(version, str) for version in listed):
            raise Refused("no page of a package index: a version is no text")
        spelled = {key(version): version for version in reversed(listed) if is_version(version)}
        for version in listed:
            if not is_version(version):
                tell(f"left out: {version}, which is no version")
            elif key(version) not in found:
                tell(f"left out: {version}, of which no file is left")
        found = {at: spelled.get(at, version) for at, version in found.items()}
    return [f"{name} {version}\n" for version in found.values()]


def main():
    words = argparse.ArgumentParser(
        prog=NAME, description=__doc__, formatter_class=argparse.RawDescriptionHelpFormatter
    )
    words.parse_args()
    try:
        lines = candidates(*read_page())
        with open(1, "wb", closefd=False) as output:
            output.write("".join(lines).encode())
    except Refused as fault:
        tell(fault)
        return 2
    except OSError as error:
        tell(f"standard output: {error.strerror}")
        return 2
    return 0


if __name__ == "__main__":
    sys.exit(main())
