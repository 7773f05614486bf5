#!/usr/bin/env python3
"""What `reqs` does, with Python's `packaging`: the installed one, else the copy inside pip.

    packaging_check.py REQUIREMENTS ENVIRONMENT CANDIDATES [EXTRA..]
    packaging_check.py --matrix REQUIREMENTS ENVIRONMENTS CANDIDATES [EXTRA..]

Prints the rows of `reqs check`, or of `reqs matrix`: then lines and candidates are read once, and markers and
specifiers are asked in each environment. `--which` alone prints which packaging it uses.
"""

import json
import re
import sys

try:
    import packaging
    from packaging.requirements import Requirement
    from packaging.utils import canonicalize_name
    from packaging.version import Version

    ORIGIN = "installed"
except ImportError:
    try:
        import pip._vendor.packaging as packaging
        from pip._vendor.packaging.requirements import Requirement
        from pip._vendor.packaging.utils import canonicalize_name
        from pip._vendor.packaging.version import Version
    except ImportError:
        sys.exit("packaging_check.py: neither packaging nor pip can be imported")

    ORIGIN = "pip's copy"

COMMENT = re.compile(r"(^|(?<=\s))#.*")


def lines_of(path):
    """The lines that hold something, without comments and the blanks around."""
    with open(path, encoding="utf-8", newline="") as file:
        text = file.read()
    for line in text.split("\n"):
        if "#" in line:
            line = COMMENT.sub("", line)
        line = line.strip()
        if line:
            yield line


def candidates_of(path):
    """A name and a version a line."""
    for line in lines_of(path):
        name, text = line.split(None, 1)
        yield canonicalize_name(name), Version(text)


def applying(requirements, environment, extras):
    """The requirements that apply, by package."""
    environments = [dict(environment, extra=extra) for extra in extras or [""]]
    packages = {}
    for it in requirements:
        if it.marker is None or any(it.marker.evaluate(each) for each in environments):
            packages.setdefault(canonicalize_name(it.name), []).append(it)
    return packages


def names_prerelease(requirement):
    """Whether a specifier has a pre-release or a developmental release, whatever its operator."""
    return any(Version(it.version.removesuffix(".*")).is_prerelease for it in requirement.specifier)


def rows(packages, candidates):
    early = {name for name, those in packages.items() if any(map(names_prerelease, those))}
    best = {}
    for name, version in candidates:
        if name not in packages or (name in best and best[name] >= version):
            continue
        if version.is_prerelease and name not in early:
            continue
        if all(it.specifier.contains(version, prereleases=True) for it in packages[name]):
            best[name] = version
    for name in sorted(packages):
        extras = {canonicalize_name(extra) for it in packages[name] for extra in it.extras}
        shown = f"[{','.join(sorted(extras))}]" if extras else ""
        direct = any(it.url for it in packages[name])
        yield f"{name}{shown} {'direct' if direct else best.get(name, 'none')}\n"


def main(words):
    if words == ["--which"]:
        print(f"packaging {packaging.__version__} ({ORIGIN}), Python {sys.version.split()[0]}")
        return
    is_matrix = words[:1] == ["--matrix"]
    if len(words) < 3 + is_matrix:
        sys.exit(__doc__)
    requirements, environments, candidates, *extras = words[is_matrix:]
    with open(environments, encoding="utf-8") as file:
        given = json.load(file)
    requirements = map(Requirement, lines_of(requirements))
    candidates = candidates_of(candidates)
    if not is_matrix:
        sys.stdout.writelines(rows(applying(requirements, given, extras), candidates))
        return
    requirements, candidates = list(requirements), list(candidates)
    for number, environment in enumerate(given, 1):
        sys.stdout.write(f"env {number}\n")
        sys.stdout.writelines(rows(applying(requirements, environment, extras), candidates))


main(sys.argv[1:])
