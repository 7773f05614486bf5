#!/usr/bin/env python3
"""Runs the tests of Python's packaging over fowlyore.

    run.py [--library FILE] [FOLDER]

FOLDER, which is out/packaging_suite where none is named, gets packaging's source and pytest, by apt-get from Debian, unless they
are there. The tests are those of packaging 25.0, and each passes, or stands in differences.txt under its kind.
A kind that ends in `packaging 26.2` has tests that packaging 26.2 fails too: that is tried where
FOWLYORE_PACKAGING names a folder that has it, and told where it isn't. The last line is `packaging: N passed, M
failed`: of M are a test that fails and isn't listed, one that is listed and doesn't fail, and one that packaging
26.2 is said to fail and doesn't.
"""

import argparse
import collections
import glob
import json
import os
import pathlib
import re
import subprocess
import sys
import tarfile

HERE = os.path.dirname(os.path.abspath(__file__))
TOP = os.path.dirname(os.path.dirname(HERE))
SUITE = "trixie"
KEYS = "/usr/share/keyrings/debian-archive-keyring.gpg"
SOURCE, ARCHIVE = "python-packaging", "python-packaging_25.0.orig.tar.gz"
PACKAGES = ["python3-pytest", "python3-iniconfig", "python3-pluggy", "python3-pretend"]
TESTS = ["test_version.py", "test_specifiers.py", "test_requirements.py", "test_markers.py", "test_utils.py"]
# The version that fowlyore stands beside, and the variable that names the folder with it.
BESIDE, NAMED = "packaging 26.2", "FOWLYORE_PACKAGING"


def fetch(folder):
    """Has apt-get fetch the source and the packages, with lists of its own, so that the machine's stay as they are."""
    for it in ("state/lists/partial", "cache/archives/partial", "debs", "source"):
        os.makedirs(os.path.join(folder, it), exist_ok=True)
    listed = os.path.join(folder, "sources.list")
    with open(listed, "w", encoding="utf-8") as file:
        file.writelines(f"{it} [signed-by={KEYS}] http://deb.debian.org/debian {SUITE} main\n" for it in ("deb", "deb-src"))
    options = {"Dir::State": f"{folder}/state", "Dir::Cache": f"{folder}/cache", "Dir::Etc::sourcelist": listed}
    options.update({"Dir::Etc::sourceparts": "/dev/null", "APT::Sandbox::User": ""})
    apt = ["apt-get", "-qq", *(word for it in options.items() for word in ("-o", "=".join(it)))]
    debs = os.path.join(folder, "debs")
    subprocess.run([*apt, "update"], check=True)
    subprocess.run([*apt, "download", *PACKAGES], check=True, cwd=debs)
    subprocess.run([*apt, "source", "--download-only", "--tar-only", SOURCE], check=True, cwd=debs)
    for it in glob.glob(os.path.join(debs, "*.deb")):
        subprocess.run(["dpkg-deb", "-x", it, os.path.join(folder, "pytest")], check=True)
    # (`rt` takes no tree in which something is a link, and nothing of these is needed)
    for it in pathlib.Path(folder).rglob("*"):
        if it.is_symlink():
            it.unlink()
    with tarfile.open(os.path.join(debs, ARCHIVE)) as archive:
        archive.extractall(os.path.join(folder, "source"))


def source_of(folder):
    found = glob.glob(os.path.join(folder, "source", "packaging-*"))
    return found[0] if found else None


def outcomes(folder, tests, paths, more=(), name="outcomes"):
    """Which tests there are, by whether they passed; modules are looked for in these paths first."""
    source, ended = source_of(folder), os.path.join(folder, f"{name}.json")
    paths = [*paths, f"{folder}/pytest/usr/lib/python3/dist-packages", HERE]
    paths += filter(None, [os.environ.get("PYTHONPATH")])
    environment = {**os.environ, "PYTHONPATH": os.pathsep.join(paths), "PYTHONDONTWRITEBYTECODE": "1"}
    environment["OUTCOMES"] = ended
    words = ["-q", "-p", "no:cacheprovider", *more, "-p", "recorded", "--tb=short", "-o", "addopts="]
    words += ["--rootdir", source]
    tests = [os.path.join(source, "tests", it) for it in tests]
    with open(os.path.join(folder, f"{name}.txt"), "w", encoding="utf-8") as file:
        subprocess.run([sys.executable, "-m", "pytest", *words, *tests], cwd=folder, env=environment, stdout=file, stderr=file)
    with open(ended, encoding="utf-8") as file:
        return {name.split("tests/", 1)[1]: passed for name, passed in json.load(file).items()}


def judge_beside(folder, found):
    """The lines that tell of listed tests that packaging 26.2 is said to fail and doesn't. That this isn't tried
    is printed."""
    patterns = [it for kind, listed in differences().items() if kind.endswith(BESIDE) for it in listed]
    named = [name for name in found if any(it.fullmatch(name) for it in patterns)]
    beside = os.environ.get(NAMED)
    if not beside:
        why = f"since {NAMED} names no folder that has it"
        print(f"not tried: that {BESIDE} fails {len(named)} of these tests too, {why}")
        return []
    theirs = outcomes(folder, named, [beside], name="beside")
    return [f"FAILED: {it} does not fail by {BESIDE}" for it in named if theirs.get(it, True)]


def differences():
    """The kinds, each with the patterns of its tests' names."""
    kinds, kind = {}, None
    with open(os.path.join(HERE, "differences.txt"), encoding="utf-8") as file:
        for line in file.read().splitlines():
            if line.startswith("["):
                kind = kinds.setdefault(line.strip("[]"), [])
            elif line and not line.startswith("#"):
                kind.append(re.compile(line))
    return kinds


def judge(found):
    """The tests that are as they are listed, and the lines that tell of others."""
    kinds, counts, wrong = differences(), collections.Counter(), []
    for name, passed in found.items():
        under = [kind for kind, patterns in kinds.items() if any(it.fullmatch(name) for it in patterns)]
        if passed == bool(under):
            wrong.append(f"FAILED: {name} {'passed and is listed' if passed else 'is not listed'}")
        else:
            counts[under[0] if under else "as packaging"] += 1
    for patterns in kinds.values():
        wrong += [f"FAILED: no test is {it.pattern}" for it in patterns if not any(map(it.fullmatch, found))]
    return counts, wrong


def main():
    words = argparse.ArgumentParser(description=__doc__, formatter_class=argparse.RawDescriptionHelpFormatter)
    words.add_argument("--library", default=os.path.join(TOP, "crates", "reqs_c", "out", "libreqs.so"), metavar="FILE")
    words.add_argument("folder", nargs="?", default=os.path.join(TOP, "out", "packaging_suite"), metavar="FOLDER")
    asked = words.parse_args()
    folder = os.path.abspath(asked.folder)
    if not source_of(folder):
        fetch(folder)
    os.environ["FOWLYORE_LIBRARY"] = os.path.abspath(asked.library)
    paths = [os.path.join(TOP, "python"), os.path.join(source_of(folder), "src")]
    found = outcomes(folder, TESTS, paths, ["-p", "in_place"])
    counts, wrong = judge(found)
    wrong += judge_beside(folder, found)
    print(*wrong, sep="\n", end="\n" if wrong else "")
    for kind, count in sorted(counts.items()):
        print(f"{count:6} {kind}")
    failed = len(wrong) or not found
    print(f"packaging: {sum(counts.values())} passed, {int(failed)} failed")
    return 1 if failed else 0


if __name__ == "__main__":
    sys.exit(main())
