"""The names in the store of verdicts on wrong edits and on parts of the gate: what these rest on beside the texts that they judge.

That is the scripts that judge them, and what these call and look at.
"""

import ast
import functools
import glob
import hashlib
import os
import re
import subprocess
import sys

import around
from crates import TOP, sum_of_files
from keys import OF_KEPT, scripts_sum, summed

OF_EDITS = (*OF_KEPT, *(f"gate/{it}.py" for it in ("around", "clauses", "edits", "seen", "wrong")))
OF_PARTS = ("gate/crates.py", "gate/gate.py", "gate/keys.py", "gate/store.py", "gate/verdicts.py",
            "gate/clauses.py", "gate/seen.py", "gate/statements.py")
# What the parts that run programs call.
TOOLS = ("ar", "bash", "cargo", "cc", "dpkg", "dpkg-deb", "ld", "mypy", "nm", "objcopy", "rustc", "strip", "valgrind")
MODULES = "import sys; print(sys.version)", "import pip; print(pip.__version__)", "import distributed; print(distributed.__version__)"
# What is tried only where somebody has fetched it.
FETCHED = os.path.join(TOP, "out", "packaging_suite", "source", "packaging-*")
# Variables on which no verdict rests: where things lie, how many jobs there are, and what the shell sets by itself.
IDLE = {"BASH_SOURCE", "COMPREPLY", "COMP_CWORD", "COMP_WORDS", "FOWLYORE_CACHE", "HOME", "PATH", "PIPESTATUS", "PWD", "RT_JOBS",
        "TMPDIR", "XDG_CACHE_HOME"}
LOOKS_AT = re.compile(r"\$\{?([A-Z][A-Z0-9_]+)|\benviron(?:\.get\(|\.pop\(|\[)\"(\w+)\"|\benv::var(?:_os)?\(\"(\w+)\"")
# How a script of the shell names another; of crates.txt each program's sum has its part.
CALLS = re.compile(r"\$\{?(?:top|here)\}?\"?/(?!crates)([\w./-]*\w)")


def of_edit(crates, edit):
    """The sum of all that the verdict on an edit of a crate rests on."""
    return summed((around.by(crates, edit), hashlib.sha256(edit.content).hexdigest(), scripts_sum(OF_EDITS)))


def of_part(words, rests_on):
    """The sum of what the verdict on a part of the gate rests on that is run by these words and reads these files and folders."""
    scripts = reached(it for it in (*words, *rests_on) if not os.path.isabs(it) and os.path.isfile(os.path.join(TOP, it)))
    inside = [it for of in rests_on for it in glob.glob(os.path.join(TOP, of, "**", "*.[pr][ys]"), recursive=True)]
    looked_at = variables([*scripts, *(os.path.relpath(it, TOP) for it in inside)])
    files = sum_of_files(os.path.join(TOP, it) for it in rests_on)
    fetched = [os.path.basename(it) for it in glob.glob(FETCHED)]
    return summed((words, files, scripts_sum((*OF_PARTS, *scripts)), looked_at, versions(), fetched))


def reached(scripts):
    """Scripts with those that they import, and in the shell those that they call by their place below the top."""
    found, left = set(), [*scripts]
    while left:
        script = left.pop()
        if script not in found:
            found.add(script)
            left += imports(script) if script.endswith(".py") else calls(script)
    return tuple(sorted(found))


def text_of(script):
    with open(os.path.join(TOP, script), encoding="utf-8", errors="replace") as file:
        return file.read()


def imports(script):
    for it in ast.walk(ast.parse(text_of(script))):
        names = [of.name for of in it.names] if isinstance(it, ast.Import) else [it.module] if isinstance(it, ast.ImportFrom) else []
        for name in filter(None, names):
            for folder in dict.fromkeys((os.path.dirname(script), "gate", "tests", "bench")):
                path = os.path.join(folder, f"{name}.py")
                if os.path.isfile(os.path.join(TOP, path)):
                    yield path
                    break


def calls(script):
    for it in CALLS.findall(text_of(script)):
        if os.path.isfile(os.path.join(TOP, it)):
            yield os.path.normpath(it)


def variables(scripts):
    """The variables that scripts look at, with their values."""
    names = {name for it in scripts for found in LOOKS_AT.findall(text_of(it)) for name in found if name}
    return [(it, os.environ.get(it)) for it in sorted(names - IDLE)]


@functools.lru_cache(maxsize=None)
def versions():
    """What each tool and interpreter says of its version, or that it isn't there."""
    asked = [[it, "--version"] for it in (*TOOLS, os.environ.get("CC") or "cc")]
    pyenv = os.environ.get("PYENV_ROOT") or os.path.expanduser("~/.pyenv")
    pythons = [sys.executable, "/usr/bin/python3", *(f"python3.{it}" for it in range(8, 21))]
    pythons += sorted(glob.glob(os.path.join(pyenv, "versions", "3.*", "bin", "python3")))
    asked += [[it, "-c", MODULES[0]] for it in pythons]
    asked += [[it, "-c", said] for it in pythons[:2] for said in MODULES[1:]]
    return tuple((words[0], said_by(words)) for words in asked)


def said_by(words):
    try:
        ran = subprocess.run(words, stdin=subprocess.DEVNULL, stdout=subprocess.PIPE, stderr=subprocess.DEVNULL, errors="replace")
    except OSError:
        return None
    return ran.stdout if ran.returncode == 0 else None
