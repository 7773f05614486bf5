#!/usr/bin/env python3
"""Tests of examples/index: an index that make.py makes is split, and answered in one process, in two and by Dask; what comes
of it is compared byte by byte with what `reqs check` prints in each environment, and refusals with those of `reqs matrix`.

    index.py [--library PATH] [--program PATH]

The library for C and the program are those that `./build` makes where none are named. What isn't tried is told. The last line
is `index: N passed, M failed`.
"""

import argparse
import json
import os
import re
import subprocess
import sys
import tempfile
from pathlib import Path

TOP = Path(__file__).resolve().parent.parent
LIMIT = 16_777_216
# A run that hasn't ended after so many seconds never does, however slow the machine is.
HANGS = 1800
# How long Dask's processes wait for one another: they may be slow too.
PATIENT = {f"DASK_DISTRIBUTED__COMM__TIMEOUTS__{it}": "300s" for it in ("CONNECT", "TCP")}
# A package that makes workers die, in place of the library: each of two once the other is there too, since a pool that loses one
# while it starts the next fails in other words.
DEADLY = f"""
import os, pathlib, time
class InvalidInput(Exception): pass
def matrix_texts(*given):
    here, last = pathlib.Path(__file__).parent, time.monotonic() + {HANGS}
    (here / f"{{os.getpid()}}.begun").touch()
    while len([*here.glob("*.begun")]) < 2 and time.monotonic() < last:
        time.sleep(0.01)
    os._exit(9)
"""
# One that answers how its process was started.
TELLING = (
    "import multiprocessing\nclass InvalidInput(Exception): pass\n"
    "def matrix_texts(*given): return [multiprocessing.get_start_method() + '\\n']\n"
)

# Beside what make.py makes: rows that look like the line before an environment's rows, white space that is Unicode's, ends of
# lines, and a last line without an end.
MORE_REQUIREMENTS = "env\nEnv>=1 ; os_name == 'nt'\r\n\u3000\u2003Foo_.Bar>1\r\n\u00a0\n\t# nothing\n\x0b\nfoo-bar<3 # below\r\nlast"
MORE_CANDIDATES = "env 1\nENV 2\nfoo.bar 2\n\u3000FOO--BAR\u30002.0\nfoo-bar 3\r\nlast 1"

# Lines that are refused, by the places where they are put in.
A, Z, NAMELESS = "aaa==\n", "zzz 1\n", "\u00fcber\n"
OPTION = "-r more.txt\n"
CASES = "".join(f"{name}>{it} ; extra == 'x{it}'\n" for it in range(3) for name in ("zz-many", "bb-many"))
REFUSED = {
    "two lines, the first by name before": ({20: A, 150: Z}, {}, None, []),
    "two lines, the first by name behind": ({20: Z, 150: A}, {}, None, []),
    "lines without a name": ({30: NAMELESS, 31: OPTION, 90: NAMELESS}, {}, None, []),
    "an option": ({100: OPTION, 120: NAMELESS}, {}, None, []),
    "candidates": ({}, {300: "zzz one\n", 700: "aaa one\n"}, None, []),
    "a candidate alone on its line": ({}, {500: "aaa\n", 900: "\u00fcber 1\n"}, None, []),
    "a line before a candidate": ({150: Z}, {1: "aaa\n"}, None, []),
    "an environment before a candidate": ({}, {1: "aaa\n"}, '[{"os_name": "posix"}]', []),
    "no environments": ({}, {}, "{", []),
    "an extra before a line": ({20: A}, {}, None, ["no name"]),
    "cases of two packages": ({40: CASES}, {}, None, ["--limit", "7"]),
    "a candidate before cases": ({40: CASES}, {900: "zzz one\n"}, None, ["--limit", "7"]),
}  # fmt: skip


class Index:
    """Lists and environments in a folder of their own, under the names by which refusals tell them."""

    def __init__(self, folder, packages, candidates, environments):
        self.folder = Path(folder)
        words = [str(packages), str(candidates), str(self.folder), "--environments", str(environments)]
        subprocess.run([sys.executable, TOP / "examples/index/make.py", *words], check=True)
        self.texts = {}
        for name in ("requirements.txt", "candidates.txt", "environments.json"):
            self.texts[Path(name).stem] = (self.folder / name).read_text()
        self.restore()

    def restore(self, **changed):
        for name, text in {**self.texts, **changed}.items():
            (self.folder / name).write_bytes(text if isinstance(text, bytes) else text.encode())


class Tests:
    def __init__(self, words, folder):
        self.passed, self.failed, self.folder = 0, 0, Path(folder)
        self.program = words.program
        self.environment = {**os.environ, **PATIENT, "PYTHONDONTWRITEBYTECODE": "1", "LC_ALL": "C.UTF-8"}
        self.library = {"PYTHONPATH": str(TOP / "python"), "FOWLYORE_LIBRARY": words.library}

    def holds(self, name, is_so, said=""):
        self.passed, self.failed = self.passed + bool(is_so), self.failed + (not is_so)
        if not is_so:
            print(f"FAILED: {name}\n{said}"[:2000])

    def ran(self, where, words, python=sys.executable, **more):
        """A script of examples/index, or the program, in a folder."""
        command = [self.program, *words[1:]] if words[0] == "reqs" else [python, TOP / "examples/index" / words[0], *words[1:]]
        how = {**self.environment, **self.library, **more}
        return subprocess.run(command, cwd=where, env=how, capture_output=True, text=True, timeout=HANGS)

    def left(self, where):
        """What a run has left behind beside its inputs."""
        inputs = re.compile(r"requirements|candidates|environments|pieces[0-9]*|.*\.txt|.*\.json")
        return sorted(it.name for it in where.iterdir() if not inputs.fullmatch(it.name))


def other_python():
    """An interpreter that has Dask's distributed, or None."""
    for it in (sys.executable, "/usr/bin/python3"):
        if subprocess.run([it, "-c", "import distributed"], capture_output=True).returncode == 0:
            return it
    return None


def try_answers(tests, dask):
    index = Index(tests.folder / "answers", 2000, 20000, 6)
    index.texts["requirements"] += MORE_REQUIREMENTS
    index.texts["candidates"] += MORE_CANDIDATES
    index.restore()
    wanted = []
    for environment in json.loads(index.texts["environments"]):
        (index.folder / "one.json").write_text(json.dumps(environment))
        wanted.append(tests.ran(index.folder, ["reqs", "check", "requirements", "one.json", "candidates"]).stdout)
    tests.holds("reqs check answers", all(it.count("\n") > 1000 and "\nenv " in it for it in wanted) and len({*wanted}) > 1)

    engines = {"one process": [], "two processes": ["--workers", "2", "--without-dask"]}
    for most in ("30000", "200000"):
        said = tests.ran(index.folder, ["split.py", "--most", most, "requirements", "candidates", f"pieces{most}"])
        pieces = json.loads((index.folder / f"pieces{most}" / "index.json").read_text())
        tests.holds(f"pieces of {most} bytes", said.returncode == 0 and are_pieces(pieces, int(most)), said.stderr)
        for name, words in engines.items():
            try_engine(tests, index, wanted, f"{name}, {len(pieces)} pieces", sys.executable, [*words, f"pieces{most}"])
    if dask:
        try_engine(tests, index, wanted, "two workers of Dask", dask, ["--workers", "2", "pieces200000"])
    else:
        print("not tried: Dask, which no interpreter here has (Debian's package python3-distributed)")


def are_pieces(pieces, most):
    """Whether there are three at least, of ranges of names that follow one another, and of that size or of one package."""
    names = [(it["first"], it["last"]) for it in pieces]
    follow = all(one[1] < two[0] for one, two in zip(names, names[1:]))
    small = all(max(it["requirements"], it["candidates"]) <= most or it["first"] == it["last"] for it in pieces)
    return len(pieces) >= 3 and follow and small


def try_engine(tests, index, wanted, name, python, words):
    said = tests.ran(index.folder, ["run.py", *words, "environments", "out"], python)
    found = sorted(it.name for it in index.folder.glob("out/*"))
    tests.holds(f"{name}: files", found == sorted(f"env-{at}.txt" for at in range(1, len(wanted) + 1)), said.stderr)
    for at, text in enumerate(wanted, 1):
        path = index.folder / "out" / f"env-{at}.txt"
        tests.holds(f"{name}: environment {at}", path.exists() and path.read_bytes() == text.encode())
        path.unlink(missing_ok=True)
    tests.holds(f"{name}: nothing else", tests.left(index.folder) == ["out"])
    (index.folder / "out").rmdir()


def with_lines(text, lines):
    """A text with other lines put in, each before the line of its number."""
    found = text.splitlines(keepends=True)
    for at in sorted(lines, reverse=True):
        found.insert(at - 1, lines[at])
    return "".join(found)


def try_refusals(tests):
    index = Index(tests.folder / "refusals", 200, 2000, 2)
    for name, (requirements, candidates, environments, words) in REFUSED.items():
        index.restore(
            requirements=with_lines(index.texts["requirements"], requirements),
            candidates=with_lines(index.texts["candidates"], candidates),
            environments=environments or index.texts["environments"],
        )
        options, extras = (words, []) if words and words[0].startswith("-") else ([], words)
        whole = tests.ran(index.folder, ["reqs", "matrix", *options, "requirements", "environments", "candidates", *extras])
        tests.ran(index.folder, ["split.py", "--most", "3000", "requirements", "candidates", "pieces"])
        options += [f"--extra={it}" for it in extras]
        parts = tests.ran(index.folder, ["run.py", *options, "pieces", "environments", "out"])
        told = "".join(it for it in parts.stderr.splitlines(True) if " pieces, " not in it)
        wanted = whole.stderr.replace("reqs: ", "run.py: ", 1)
        tests.holds(f"refused: {name}", (whole.returncode, parts.returncode) == (2, 2) and told == wanted, told + wanted)
        tests.holds(f"refused, nothing is left: {name}", not tests.left(index.folder), parts.stderr)
        subprocess.run(["rm", "-r", index.folder / "pieces"], check=True)
    index.restore()
    try_splits(tests, index)
    try_files(tests, index)


def try_splits(tests, index):
    """What split.py refuses, and what is just small enough."""
    not_text = index.texts["requirements"].encode() + b"# \xc3\xbc \xe2\x82\n"
    long, line = "a 1 #" + "x" * 999_994 + "\n", "b 1 #" + "x" * (LIMIT - 6) + "\n"
    fits = f"a 1 #{'x' * (LIMIT - 16 * 1_000_000 - 6)}\n"
    cases = {
        "no UTF-8": ({"requirements": not_text}, f"requirements: not UTF-8 at byte {len(not_text) - 3}"),
        "a package": ({"candidates": "b 2\n" + 17 * long}, f"candidates: the lines of a have 17000000 bytes, and more than {LIMIT}"),
        "a line": ({"candidates": f"c 1\nx{line}"}, f"candidates: line 2: longer than {LIMIT} bytes"),
        "as long as may be": ({"candidates": 16 * long + "d 2\n" + fits + "c 1\n" + line}, None),
    }  # fmt: skip
    for name, (changed, message) in cases.items():
        index.restore(**changed)
        said = tests.ran(index.folder, ["split.py", "requirements", "candidates", "parts"])
        if message:
            is_so = (said.returncode, said.stderr) == (2, f"split.py: {message}\n") and not tests.left(index.folder)
        else:
            is_so = said.returncode == 0 and tests.left(index.folder) == ["parts"]
        tests.holds(f"split: {name}", is_so, said.stderr)
    index.restore()


def try_files(tests, index):
    """Files and workers that aren't there, and answers that are."""
    folder = index.folder
    said = tests.ran(folder, ["split.py", "requirements", "candidates", "parts"])
    tests.holds("split: pieces are there", (said.returncode, said.stderr) == (2, "split.py: parts is there already\n"))
    said = tests.ran(folder, ["split.py", "requirements", "nowhere", "pieces"])
    tests.holds("split: no file", (said.returncode, said.stderr) == (3, "split.py: nowhere: No such file or directory\n"))
    (folder / "out").mkdir()
    said = tests.ran(folder, ["run.py", "parts", "environments", "out"])
    tests.holds("run: answers are there", (said.returncode, said.stderr) == (2, "run.py: out is there already\n"))
    (folder / "out").rmdir()
    for name, words in {"pieces": ["nowhere", "environments"], "environments": ["parts", "nowhere"]}.items():
        said = tests.ran(folder, ["run.py", *words, "out"])
        is_told = said.stderr.endswith("No such file or directory\n") and said.stderr.count("\n") == 1
        tests.holds(f"run: no {name}", said.returncode == 3 and is_told, said.stderr)
    (tests.folder / "deadly").mkdir()
    (tests.folder / "deadly" / "fowlyore.py").write_text(DEADLY)
    words = ["run.py", "--workers", "2", "--without-dask", "parts", "environments", "out"]
    said = tests.ran(folder, words, PYTHONPATH=str(tests.folder / "deadly"))
    is_told = said.stderr.startswith("run.py: BrokenProcessPool: ") and said.stderr.count("\n") == 1
    tests.holds("run: a lost worker ends it", said.returncode == 3 and is_told, said.stderr)
    tests.holds("run: nothing is left", tests.left(folder) == ["parts"])
    try_processes(tests, folder)
    try_limits(tests, folder)


def try_processes(tests, folder):
    """No worker is a copy of a process with threads, in which the library mustn't be called."""
    (tests.folder / "telling").mkdir()
    (tests.folder / "telling" / "fowlyore.py").write_text(TELLING)
    words = ["run.py", "--workers", "2", "--without-dask", "parts", "environments", "out"]
    said = tests.ran(folder, words, PYTHONPATH=str(tests.folder / "telling"))
    told = (folder / "out" / "env-1.txt").read_text() if said.returncode == 0 else ""
    tests.holds("run: processes are started anew", set(told.split()) == {"spawn"}, f"{told}{said.stderr}")
    subprocess.run(["rm", "-rf", folder / "out"], check=True)


def try_limits(tests, folder):
    """Those that `reqs matrix` refuses."""
    for limit in ("-1", "1000001", "x", "", "\uff11"):
        whole = tests.ran(folder, ["reqs", "matrix", f"--limit={limit}", "requirements", "environments", "candidates"])
        parts = tests.ran(folder, ["run.py", f"--limit={limit}", "parts", "environments", "out"])
        is_so = (whole.returncode, parts.returncode) == (2, 2) and tests.left(folder) == ["parts"]
        tests.holds(f"run: the limit '{limit}'", is_so, whole.stderr + parts.stderr)


def main():
    words = argparse.ArgumentParser(description=__doc__, formatter_class=argparse.RawDescriptionHelpFormatter)
    words.add_argument("--library", type=os.path.abspath)
    words.add_argument("--program", type=os.path.abspath)
    words = words.parse_args()
    for name, built in (("library", "reqs_c/out/libreqs.so"), ("program", "reqs_cli/out/reqs_cli")):
        if not getattr(words, name):
            subprocess.run([TOP / "build", built.split("/")[0]], check=True, stdin=subprocess.DEVNULL)
            setattr(words, name, str(TOP / "crates" / built))
    with tempfile.TemporaryDirectory() as folder:
        tests = Tests(words, folder)
        try_answers(tests, other_python())
        try_refusals(tests)
    print(f"index: {tests.passed} passed, {tests.failed} failed")
    return 1 if tests.failed or not tests.passed else 0


if __name__ == "__main__":
    sys.exit(main())
