#!/usr/bin/env python3
"""Lists each file with the first sentence of its head, in docs/FILES.md.

    files.py --write    writes the list
    files.py --check    fails where the list is another, and where a file has no head

The list has the sources, definitions and proofs of each crate in the order of crates.txt, and the scripts and the sources of the
packages for Python and Rust. Proofs of single functions, which stand in folders of `proofs/`, are left out. The last line is
`N passed, M failed`, a file each.
"""

import ast
import glob
import os
import re
import subprocess
import sys

TOP = os.path.dirname(os.path.dirname(os.path.abspath(__file__)))
sys.path.insert(0, os.path.join(TOP, "gate"))
from crates import Crates

PAGE = os.path.join(TOP, "docs", "FILES.md")
HEAD = """# Files

What each file is about, by the first sentence of its head. `python3 tools/files.py --write` makes this list, and the gate checks it;
`MAP.md` says how the parts hang together.
"""
# What a head's lines begin with, by the end of the file's name.
MARKS = {".rt": "//!", ".rs": "//!", ".antt": "--"}
FOLDERS = (
    ("The top", "build", "install", "pack", "reqs", "test", "try"),
    ("The gate", "gate/*.py"),
    ("Tests", "tests/*.py", "tests/*.sh", "tests/*.c", "tests/rust/*.py", "tests/packaging_suite/*.py"),
    ("Tools", "tools/*", "share/*.py"),
    ("Measuring", "bench/*.py"),
    ("Examples", "examples/index/*.py"),
    ("The package for Python", "python/*.py", "python/fowlyore/*.py", "python/tests/*.py", "python/extension/*"),
    ("The crate for Rust", "rust/fowlyore/build.rs", "rust/fowlyore/src/*.rs", "rust/fowlyore/tests/*.rs"),
)
SENTENCE = re.compile(r'(.+?[.:])(?=\s+[A-Z`"(*]|$)')


def marked(lines, mark):
    """The first paragraph of the lines at the front that begin with a mark."""
    said = []
    for line in lines:
        if not line.startswith(mark) or not line[len(mark) :].strip():
            break
        said.append(line[len(mark) :].strip())
    return " ".join(said)


def head(path, text):
    """The first paragraph of a file's head, or nothing."""
    end = os.path.splitext(path)[1]
    lines = re.sub(r"\A(?:#!.*\n)+", "", text).splitlines()
    if end in MARKS:
        return marked(lines, MARKS[end])
    if end == ".py":
        return (ast.get_docstring(ast.parse(text)) or "").split("\n\n")[0].replace("\n", " ")
    if end in (".c", ".h"):
        said = re.match(r"/\*\s*(.*?)(?:\*/|\n\s*\*?\s*\n)", text, re.S)
        return " ".join(re.sub(r"^\s*\* ?", "", it) for it in said[1].splitlines()).strip() if said else ""
    return marked(lines, "#")


def sentence(path):
    """What a file is about, or nothing."""
    with open(os.path.join(TOP, path), encoding="utf-8") as file:
        said = SENTENCE.match(" ".join(head(path, file.read()).split()))
    return said[1].rstrip(":.") + "." if said else ""


def found(*patterns):
    """The files of the repository that meet these patterns, each once and in this order."""
    paths = (it for of in patterns for it in sorted(glob.glob(os.path.join(TOP, of), recursive=True)))
    return [*dict.fromkeys(os.path.relpath(it, TOP) for it in paths if os.path.isfile(it))]


def of_crate(folder):
    """The files of a crate that are listed, the one that says what the crate is first."""
    patterns = ("src/lib.rt", "src/main.rt", "src/**/*.rt", "specs/*.antt", "proofs/*.antt")
    return [it for it in found(*(os.path.join(folder, of) for of in patterns)) if not it.endswith("/Lib.antt")]


def parts():
    """The parts of the list: a heading, the folder that its files are named from, and the files."""
    for name, *patterns in FOLDERS:
        yield name, "", [it for it in found(*patterns) if not it.endswith("__init__.py") or sentence(it)]
    for crate in Crates().values():
        folder = os.path.relpath(crate.folder, TOP)
        yield crate.name, folder + os.sep, of_crate(folder)


def listed():
    """The list's text, and the files without a head."""
    pieces, count, bare = [HEAD], 0, []
    for name, folder, files in parts():
        lines = []
        for path in files:
            said = sentence(path)
            count += 1
            bare += [] if said else [path]
            lines.append(f"- `{path.removeprefix(folder)}`: {said}")
        pieces.append(f"## {name}\n\n" + "\n".join(lines) + "\n")
    return "\n".join(pieces), count, bare


def ignored():
    """What is committed though git ignores it, as a program in out/, which is taken for proved by the mark beside it."""
    words = ["git", "ls-files", "-z", "--cached", "--ignored", "--exclude-standard"]
    ran = subprocess.run(words, cwd=TOP, stdin=subprocess.DEVNULL, capture_output=True)
    # (a copy that is no clone has nothing committed)
    return [it for it in ran.stdout.decode(errors="replace").split("\0") if it] if ran.returncode == 0 else []


def main(words):
    if words not in (["--write"], ["--check"]):
        print(__doc__, file=sys.stderr)
        return 2
    text, count, bare = listed()
    if words == ["--write"]:
        with open(PAGE, "w", encoding="utf-8") as file:
            file.write(text)
    with open(PAGE, encoding="utf-8") as file:
        page = file.read()
    there = set(page.splitlines())
    other = [it for it in text.splitlines() if it not in there]
    gone = sorted(there - set(text.splitlines()))
    if page != text and not other + gone:
        other = ["all of them, in this order and once"]
    committed = ignored()
    for path in committed:
        print(f"FAILED: {path} is committed, though git ignores it")
    for path in bare:
        print(f"FAILED: {path} has no head that begins with a sentence")
    for it in [*other, *gone]:
        print(f"FAILED: docs/FILES.md {'lacks' if it in other else 'has'} the line: {it}")
    failed = len(committed) + len(bare) + max(len(other), len(gone))
    if other or gone:
        print("`python3 tools/files.py --write` makes the list anew")
    print(f"{max(count - failed, 0)} passed, {failed} failed")
    return 1 if failed else 0


if __name__ == "__main__":
    sys.exit(main(sys.argv[1:]))
