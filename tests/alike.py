#!/usr/bin/env python3
"""Compares what `reqs matrix` says with what `reqs check` says in each environment, on random inputs.

    alike.py COUNT [--seed N] [--program PATH]
    alike.py --round N [--seed N] [--program PATH] [--folder FOLDER]

A round is a list of up to 12 lines, candidates for them, extras and 1 to 6 environments. `matrix` runs once on it, and
`check` once for each environment: where all of these answer, the answer of `matrix` has to be theirs, byte by byte, each
behind its line `env K`; where one is refused, `matrix` has to be refused by the same words but for the place of the
environment. In the first environment `check` is asked once more, where for each package a line beside the others names a
pre-release: each row has to be what it was, or to take a pre-release. The rounds of a seed are the same on each machine. The
second form runs the one round of that number, shows what is said, and leaves its inputs in the folder.

PROGRAM is ../crates/reqs_cli/out/reqs_cli where none is named. The last line is `alike: N passed, M failed`, a round each. It
fails too where of all packages none was taken, none had nothing to take or none was direct, where no row took a pre-release or
would have if one had been named, or where of all rounds no input was refused or no two environments had different answers.
"""

import argparse
import json
import multiprocessing
import os
import re
import shutil
import subprocess
import sys
import tempfile
from collections import Counter

import runs

PROGRAM = os.path.join(os.path.dirname(os.path.abspath(__file__)), "..", "crates", "reqs_cli", "out", "reqs_cli")
MOST_LINES, MOST_ENVIRONMENTS = 12, 6
# What becomes of a package, and of a round. Each has to come at least once. (`passed over`: pre-releases, for want of a line
# that names one)
ROWS, ROUNDS = ("taken", "none", "direct", "pre-releases", "passed over"), ("refused", "differing")


class Draw:
    """Random numbers by SplitMix64, so that they rest on no library."""

    MASK = 2**64 - 1

    def __init__(self, seed, number):
        self.state = (seed << 32 ^ number) & self.MASK

    def below(self, most):
        self.state = (self.state + 0x9E3779B97F4A7C15) & self.MASK
        it = (self.state ^ self.state >> 30) * 0xBF58476D1CE4E5B9 & self.MASK
        it = (it ^ it >> 27) * 0x94D049BB133111EB & self.MASK
        return (it ^ it >> 31) * most >> 64

    def one(self, things):
        return things[self.below(len(things))]

    def is_in(self, percent):
        return self.below(100) < percent

    def shuffled(self, things):
        left, found = [*things], []
        while left:
            found.append(left.pop(self.below(len(left))))
        return found

    def some(self, things, most):
        return self.shuffled(things)[: self.below(most + 1)]


# Packages, each in several spellings. Rows of `env` look like the lines that number environments.
NAMES = (("foo", "Foo", "FOO"), ("foo-bar", "Foo_Bar", "foo.bar", "FOO--bar"), ("a", "A"), ("env", "Env"), ("z9", "Z9"))
EXTRAS = ("dev", "Dev", "test", "Other_Extra", "other.extra", "x")
RELEASES = ("0", "1", "1.0", "1.0.0", "1.1", "1.2", "1.2.0", "1.2.3", "1.10", "2", "2.0", "2.1", "2.1.1", "3.0", "01.1", "10.4.2")
PUBLIC_PARTS = ("a1", "b2", "rc1", ".post1", ".dev3", "a1.dev2", "rc1.post2", ".post1.dev4", "-1", ".RC.2", "alpha", "_post_2")
LOCAL_PARTS = ("+cpu", "+1", "+cu118.2", "+Ubuntu-1", "+01")
URLS = ("https://example.org/foo.whl", "https://${HOST}/a#sha=1", "file:///srv/foo.whl", "./near.whl", "git+https://example.org/r@v1")
SPACES = ("", "", " ", "  ", "\t")
WIDE = (" ", " ", "  ", "\t", " \t ")

PYTHONS = ("2.7.18", "3.7.17", "3.8.20", "3.9.0", "3.9.24", "3.10.4", "3.11.0rc1", "3.11.4", "3.12.0", "3.13.9", "3.14.0a7", "3.14.0")
MEMBERS = {
    "implementation_name": ("cpython", "pypy", "jython"),
    "os_name": ("posix", "nt", "java", ""),
    "platform_machine": ("x86_64", "AMD64", "arm64", "aarch64"),
    "platform_python_implementation": ("CPython", "PyPy", "Jython"),
    "platform_release": ("5.4", "6.1.0", "10", "6.8.0-45-generic"),
    "platform_system": ("Linux", "Windows", "Darwin", "Java"),
    "platform_version": ("#1 SMP", "10.0.19045", "Darwin Kernel Version 23.6.0", "\u00fc"),
    "sys_platform": ("linux", "win32", "darwin", "cygwin", "linux2"),
}
OLD_KEYS = {"os.name": "os_name", "sys.platform": "sys_platform", "platform.version": "platform_version",
            "platform.machine": "platform_machine", "platform.python_implementation": "platform_python_implementation",
            "python_implementation": "platform_python_implementation"}
VERSION_KEYS = ("python_version", "python_full_version", "implementation_version")
MARKER_VERSIONS = ("2.7", "3", "3.7", "3.8", "3.9", "3.9.0", "3.10", "3.11", "3.11.0rc1", "3.11.4", "3.12", "3.13", "3.14", "4", "7.3.12")
VERSION_LISTS = ("3.8 3.9", "3.9 3.10 3.11", "2.7, 3.8", "3.11.4", "")
SIGNS = ("==", "!=", "<", "<=", ">", ">=", "~=")
MEANINGLESS = ("'a' == 'b'", "os_name == sys_platform", "python_version > 'x'", "extra == ''", "'3.8' < '3.9'")

# What is refused.
WRONG_LINES = ("foo- >=1", "foo>=", "foo>=1.0,", "foo[a", "foo[a-]", "-r R", "foo ; os_name = 'x'", "foo ; python_version >", "foo==1 bar",
               "foo @ ../../../../../../../../../../../../foo.whl", "foo @", "foo ; (os_name == 'x'", "foo~=1", "foo<1.0+cpu",
               "foo ; python_version > '3.18446744073709551615'", "foo ; os_name === 'x'", "\u00fcber", "foo>=1.0\\")
WRONG_CANDIDATES = ("foo", "foo one", "foo- 1.0", "foo 1.0 x", "foo 18446744073709551616")
WRONG_EXTRAS = ("dev-", "a b", "\u00fc")


def version(draw, locals_too):
    text = draw.one(RELEASES)
    if draw.is_in(3):
        text = "1!" + text
    if draw.is_in(30):
        text += draw.one(PUBLIC_PARTS)
    if locals_too and draw.is_in(15):
        text += draw.one(LOCAL_PARTS)
    return "v" + text if draw.is_in(3) else text


def specifier(draw):
    sign = draw.one((*SIGNS, ">=", ">=", "<=", "!=", "!=", "===", "==.*", "!=.*"))
    if sign.endswith("*"):
        return f"{sign[:2]}{draw.one(SPACES)}{draw.one(RELEASES)}.*"
    if sign == "~=":
        text = draw.one([it for it in RELEASES if "." in it]) + (draw.one(PUBLIC_PARTS) if draw.is_in(20) else "")
    else:
        text = version(draw, sign in ("==", "!=", "==="))
    return sign + draw.one(SPACES) + text


def specifiers(draw):
    text = draw.one((",", ", ", " ,", " , ")).join(specifier(draw) for _ in range(draw.one((0, 1, 1, 1, 1, 2, 2, 3))))
    return f"({text})" if text and draw.is_in(10) else text


def quoted(draw, text):
    return draw.one(("'{}'", '"{}"')).format(text)


def compared(draw, key, sign, text):
    """A comparison, perhaps with its sides exchanged."""
    is_word = sign[0] in "ni"
    sign = draw.one(WIDE).join(sign.split())
    left, right = draw.one(WIDE if is_word else SPACES), draw.one(WIDE if is_word else SPACES)
    sides = [key, quoted(draw, text)]
    if draw.is_in(20):
        sides.reverse()
    return sides[0] + left + sign + right + sides[1]


def comparison(draw):
    kind = draw.below(100)
    if kind < 40:
        key, sign = draw.one(VERSION_KEYS), draw.one((*SIGNS, "<", ">=", "==.*", "!=.*", "in", "not in"))
        if sign[0] in "ni":
            return compared(draw, key, sign, draw.one(VERSION_LISTS))
        star = ".*" if sign.endswith("*") else ""
        return compared(draw, key, sign.removesuffix(".*"), draw.one(MARKER_VERSIONS) + star)
    if kind < 82:
        key = draw.one((*MEMBERS, *MEMBERS, *OLD_KEYS))
        texts = draw.shuffled(MEMBERS[OLD_KEYS.get(key, key)])
        if draw.is_in(35):
            text = draw.one(("", " ", ", ")).join(texts[:2]) if draw.is_in(60) else texts[0][1:4]
            return compared(draw, key, draw.one(("in", "not in")), text)
        return compared(draw, key, draw.one(("==", "==", "!=", *SIGNS)), texts[0])
    if kind < 96:
        return compared(draw, "extra", draw.one(("==", "==", "!=")), draw.one(EXTRAS))
    return draw.one(MEANINGLESS)


def marker(draw, depth=2):
    kind = draw.below(10)
    if depth == 0 or kind < 6:
        return comparison(draw)
    if kind < 7:
        return f"({draw.one(SPACES)}{marker(draw, depth - 1)}{draw.one(SPACES)})"
    joined = draw.one(("and", "or"))
    return f"{marker(draw, depth - 1)}{draw.one(WIDE)}{joined}{draw.one(WIDE)}{marker(draw, depth - 1)}"


def line(draw):
    text = draw.one(draw.one(NAMES)) + draw.one(SPACES)
    if draw.is_in(20):
        extras = draw.one((",", " , ")).join(draw.some(EXTRAS, 3))
        text += f"[{draw.one(SPACES)}{extras}]{draw.one(SPACES)}"
    if draw.is_in(6):
        text += f"@{draw.one(SPACES)}{draw.one(URLS)} "
    else:
        # (a name that may be taken for an archive's needs something behind it)
        text += specifiers(draw)
    if draw.is_in(75):
        text += f"{draw.one(SPACES)};{draw.one(SPACES)}{marker(draw)}"
    return text


def laid_out(draw, lines):
    """A text of these lines, with comments, blank lines and odd spacing."""
    found = []
    for it in lines:
        if draw.is_in(8):
            found.append(draw.one(("", "  ", "# a comment", "\t# foo==9", "#")))
        comment = draw.one((" # pinned", "\t#foo==9", "  #")) if draw.is_in(10) else ""
        found.append(draw.one(SPACES) + it + draw.one(SPACES) + comment)
    end = draw.one(("\n", "\n", "\n", "\r\n"))
    return end.join(found) + (end if draw.is_in(80) else "")


# What each package is asked for besides: a pre-release is named, and no candidate excluded.
NAMED = "".join(f"\n{names[0]}!=0.0.dev0" for names in NAMES)
# A version in normal form that is a pre-release or a developmental release.
PRERELEASE = re.compile(rb"[^+]*(?:a|b|rc|\.dev)[0-9].*")


def with_wrong(draw, things, wrong, percent):
    """The things, in some of a hundred rounds with a wrong one among them."""
    if draw.is_in(percent):
        things.insert(draw.below(len(things) + 1), draw.one(wrong))
    return things


def requirements(draw):
    lines = [line(draw) for _ in range(draw.below(MOST_LINES + 1))]
    lines = with_wrong(draw, lines[: MOST_LINES - 1], WRONG_LINES, 100) if draw.is_in(5) else lines
    return laid_out(draw, lines)


def candidates(draw):
    lines = [f"{draw.one(draw.one(NAMES))}{draw.one(WIDE)}{version(draw, True)}" for _ in range(draw.below(60))]
    return laid_out(draw, with_wrong(draw, lines, WRONG_CANDIDATES, 3))


def members(draw):
    python = draw.one(PYTHONS)
    short = ".".join(python.split(".")[:2]) if draw.is_in(95) else draw.one(PYTHONS)
    found = {key: draw.one(texts) for key, texts in MEMBERS.items()}
    found["python_full_version"] = f" v{python.upper()} " if draw.is_in(5) else python
    found["python_version"] = short
    found["implementation_version"] = python if draw.is_in(80) else "7.3.12"
    return found


def environment(draw, is_wrong):
    """The text of an environment, or mostly of something that is none."""
    found = members(draw)
    keys, wrong = [*found], draw.below(5) if is_wrong else None
    if draw.is_in(10):
        found["name"] = draw.one(("x", 7, None, ["y", {"z": 2**64 - 1}]))
    if wrong == 0:
        del found[draw.one(keys)]
    if wrong == 1:
        found[draw.one(keys)] = draw.one((None, 3, ["3.8"], {}, "no version"))
    if wrong == 2 or is_wrong and draw.is_in(10):
        found["load"] = draw.one((0.5, 2**64, [{"deep": 1e3}]))
    text = json.dumps({it: found[it] for it in draw.shuffled(found)}, ensure_ascii=draw.is_in(50))
    if wrong == 3:
        text = draw.one(("[]", "1", '"posix"', "null", "0.5", "{}", "{", text[:-1], "nul", text + ","))
    return text.encode().replace(b"name", b"na\xff") if wrong == 4 else text.encode()


class Round:
    """The inputs of a round."""

    def __init__(self, seed, number):
        draw = Draw(seed, number)
        self.requirements, self.candidates = requirements(draw).encode(), candidates(draw).encode()
        self.environments, count = [], 1 + draw.below(MOST_ENVIRONMENTS)
        are_wrong = draw.is_in(12)
        while len(self.environments) < count:
            text = environment(draw, are_wrong and draw.is_in(50))
            if text not in self.environments:
                self.environments.append(text)
        self.extras = with_wrong(draw, draw.some(EXTRAS, 2), WRONG_EXTRAS, 1)
        self.limit = draw.one(([], [], ["--limit", "4096"], ["--limit=1000000"]))
        self.between = draw.one((",", ", ", "\n,\n  "))
        # where each environment begins in the list
        self.places, at = [], 1
        for it in self.environments:
            self.places.append(at)
            at += len(it) + len(self.between)

    def write(self, folder):
        texts = {"R": self.requirements, "C": self.candidates, "NAMED": self.requirements + NAMED.encode()}
        texts["ES"] = b"[" + self.between.encode().join(self.environments) + b"]"
        texts.update((f"E{at}", it) for at, it in enumerate(self.environments, 1))
        for name, text in texts.items():
            with open(os.path.join(folder, name), "wb") as file:
                file.write(text)

    def commands(self):
        """The words of `matrix`, those of `check` for each environment, and those where pre-releases are named."""
        yield ["matrix", *self.limit, "R", "ES", "C", *self.extras]
        for at in range(1, len(self.environments) + 1):
            yield ["check", "R", f"E{at}", "C", *self.extras]
        yield ["check", "NAMED", "E1", "C", *self.extras]


# What is said of an environment, in the order in which a list of them is looked at.
OF_ENVIRONMENTS = [re.compile(rb"reqs: E[0-9]+: " + it + rb"\n") for it in (
    rb"not UTF-8 at byte ([0-9]+)", rb"not JSON", rb"a number is a float", rb"not an object", rb"environment 1: (member .*)")]


def refusal(number, of, place, said):
    """What `matrix` says of an environment where `check` says this."""
    if number == 0:
        return b"reqs: ES: not UTF-8 at byte %d\n" % (place + int(of[1]))
    if number == len(OF_ENVIRONMENTS) - 1:
        return b"reqs: ES: environment %d: %s\n" % (said, of[1])
    return re.sub(rb"^reqs: E[0-9]+:", b"reqs: ES:", of[0])


def wanted(checks, places):
    """What `matrix` has to say by what `check` says in each environment: a status and two outputs, or nothing where
    these don't fit together."""
    for number, form in enumerate(OF_ENVIRONMENTS):
        for at, (status, out, err) in enumerate(checks):
            of = form.fullmatch(err)
            if of:
                return (2, b"", refusal(number, of, places[at], at + 1)) if (status, out) == (2, b"") else None
    if checks[0][0] == 2:
        return checks[0] if all(it == checks[0] for it in checks) and not checks[0][1] else None
    if any(status or err for status, _, err in checks):
        return None
    return 0, b"".join(b"env %d\n%s" % (at, out) for at, (_, out, _) in enumerate(checks, 1)), b""


def ran(program, words, folder):
    environment = {"LC_ALL": "C.UTF-8", "PWD": folder, "HOST": "example.org"}
    how = {"env": environment, "stdin": subprocess.DEVNULL, "capture_output": True, "timeout": runs.HANGS}
    done = subprocess.run([program, *words], cwd=folder, **how)
    return done.returncode, done.stdout, done.stderr


def passed_over(check, named):
    """The rows of `check` that are others where pre-releases are named, or nothing where one isn't as it has to be then."""
    if check[0] != 0:
        return []
    # (packages that no line asked for have rows there too)
    rows = dict(it.rsplit(b" ", 1) for it in named[1].splitlines())
    found = [it.rsplit(b" ", 1) for it in check[1].splitlines()]
    if named[0] or any(rows.get(package) != what and not PRERELEASE.fullmatch(rows.get(package, b"")) for package, what in found):
        return None
    return [package for package, what in found if rows[package] != what]


def counted(checks, said, over):
    """How often a package was taken, and so on, over all environments of a round."""
    answers = [out for status, out, _ in checks if status == 0]
    found = Counter(environments=len(checks), refused=int(said[0] == 2), differing=int(said[0] == 0 and len({*answers}) > 1))
    found["passed over"] = len(over or ())
    for row in b"".join(answers).splitlines():
        what = row.rpartition(b" ")[2]
        found[what.decode() if what in (b"none", b"direct") else "taken"] += 1
        found["pre-releases"] += bool(PRERELEASE.fullmatch(what))
    return found


def played(task):
    """What came of a round: how often what was seen, and a fault or nothing."""
    program, seed, number, kept = task
    made = Round(seed, number)
    folder = kept or tempfile.mkdtemp(prefix="alike-")
    try:
        made.write(folder)
        said, *checks, named = [ran(program, words, folder) for words in made.commands()]
    except (OSError, subprocess.TimeoutExpired) as error:
        return Counter(), f"round {number}: {error}"
    finally:
        if not kept:
            shutil.rmtree(folder)
    want, over, fault = wanted(checks, made.places), passed_over(checks[0], named), None
    if said != want:
        fault = f"round {number}: matrix says {said}, not {want}"
        fault += "" if want else f"; check says {checks}"
    elif over is None:
        fault = f"round {number}: where pre-releases are named check says {named}, not {checks[0]}"
    if kept:
        for words, it in zip(made.commands(), [said, *checks, named]):
            print(*words, *it, sep="\n    ")
    return counted(checks, said, over), fault


def all_played(words, play_one):
    """Plays all rounds side by side, and prints the first that fail. Returns what was seen in all, and how many failed."""
    sums, faults = Counter(), []
    tasks = ((words.program, words.seed, number, None) for number in range(words.count))
    with multiprocessing.Pool(len(os.sched_getaffinity(0))) as pool:
        for seen, fault in pool.imap(play_one, tasks, chunksize=8):
            sums += seen
            if fault:
                faults.append(fault)
    for it in faults[:5]:
        print(f"FAILED: {it[:1000]}")
    return sums, len(faults)


def play(words):
    """Plays all rounds, and returns how many passed and failed."""
    sums, failed = all_played(words, played)
    rounds, rows = (", ".join(f"{sums[it]} {it}" for it in kinds) for kinds in (ROUNDS, ROWS))
    print(f"alike: seed {words.seed}: {words.count} rounds ({rounds}), {sums['environments']} environments; rows: {rows}")
    lacking = [it for it in (*ROWS, *ROUNDS) if not sums[it]]
    for it in lacking:
        print(f"FAILED: not one was {it}")
    return words.count - failed, failed + len(lacking)


def command(text, name, play_one, play_many, well):
    """Does what the words of a script of rounds ask for: plays all rounds, or one. Returns the exit status.

    `text` tells of the script, whose name is `name`; `well` is said of a round without a fault.
    """
    words = argparse.ArgumentParser(description=text, formatter_class=argparse.RawDescriptionHelpFormatter)
    words.add_argument("count", metavar="COUNT", type=int, nargs="?")
    words.add_argument("--round", metavar="N", type=int)
    words.add_argument("--seed", metavar="N", type=int, default=1)
    words.add_argument("--program", metavar="PATH", default=os.path.normpath(PROGRAM))
    words.add_argument("--folder", metavar="FOLDER", help="of one round")
    given = words.parse_args()
    given.program = os.path.abspath(given.program)
    if (given.count is None) == (given.round is None):
        words.error("either COUNT or --round is needed")
    if given.round is not None:
        folder = os.path.abspath(given.folder or tempfile.mkdtemp(prefix=f"{name}-"))
        os.makedirs(folder, exist_ok=True)
        print(f"the inputs are in {folder}")
        fault = play_one((given.program, given.seed, given.round, folder))[1]
        print(fault or well)
        return 1 if fault else 0
    passed, failed = play_many(given)
    print(f"{name}: {passed} passed, {failed} failed")
    return 1 if failed else 0


if __name__ == "__main__":
    sys.exit(command(__doc__, "alike", played, play, "alike"))
