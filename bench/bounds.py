#!/usr/bin/env python3
"""Times the refusals of lists that grow past a bound on nodes, on clauses or on the cases of all packages.

    bounds.py [PROGRAM] [--runs N]

PROGRAM is crates/reqs_cli/out/reqs_cli where none is named (`./build` makes it). Each list but the last has a few hundred
bytes and a diagram, or a text, that doubles with each pair of extras:

    pairs     `normal` on one line `extra == 'a0' and extra == 'b0' or extra == 'a1' ..`
    clauses   `normal` on one line `(extra == 'a0' or extra == 'b0') and ..`
    texts     `normal` on one line of pairs `'a0' in os_name and 'b0' in os_name` with `or` between them
    lists     `same` on such a line and the same pairs in another order
    conflicts `conflicts` on two lines of pairs for one package
    matrix    `matrix` on the same two lines
    printed   `normal` on 17 clauses, whose diagram is within the bound and whose text is not
    cases     `matrix` on 200 packages of ten lines, each with an extra of its own, so that each package has 1,024 cases

The bounds are 1,000,000 nodes, 100,000 clauses and 100,000 cases. Seconds are the least processor seconds of several runs, MiB the most
memory that one held. The exit status is 1 where a refusal is another than the named one, or takes more than 2 seconds or
300 MiB.
"""

import argparse
import os
import subprocess
import sys
import tempfile

HERE = os.path.dirname(os.path.abspath(__file__))
sys.dont_write_bytecode = True
sys.path.insert(0, HERE)
from run import peak

NODES, CLAUSES, CASES = 1_000_000, 100_000, 100_000
PAIRS, PRINTED = 24, 17
PACKAGES, LINES = 200, 10
SECONDS, MIB = 2, 300
# The status of a refused command.
REFUSED = 2


def pairs(number, form="extra == '{}'"):
    return [f"{form.format(f'a{at:02}')} and {form.format(f'b{at:02}')}" for at in range(number)]


def clauses(number):
    return " and ".join(f"(extra == 'a{at:02}' or extra == 'b{at:02}')" for at in range(number))


def packages(number, lines):
    return "".join(f"p{of} ; extra == 'x{of}-{at}'\n" for of in range(number) for at in range(lines))


def line(*parts):
    return f"foo ; {' or '.join(parts)}\n"


# The environments and candidates of `matrix`.
OTHERS = ("[]", "")
# A name, the command, its lists, and what the refusal says.
SHAPES = (
    ("pairs", "normal", [line(*pairs(PAIRS))], f"more than {NODES} nodes"),
    ("clauses", "normal", [line(clauses(PAIRS))], f"more than {NODES} nodes"),
    ("texts", "normal", [line(*pairs(PAIRS, "'{}' in os_name"))], f"more than {NODES} nodes"),
    ("lists", "same", [line(*pairs(PAIRS)), line(*reversed(pairs(PAIRS)))], f"more than {NODES} nodes"),
    ("conflicts", "conflicts", [line(*pairs(PAIRS)) + line(*pairs(PAIRS)[1:])], f"more than {NODES} nodes"),
    ("matrix", "matrix", [line(*pairs(PAIRS)) + line(*pairs(PAIRS)[1:]), *OTHERS], f"more than {NODES} nodes"),
    ("printed", "normal", [line(clauses(PRINTED))], f"more than {CLAUSES} clauses"),
    ("cases", "matrix", [packages(PACKAGES, LINES), *OTHERS], f"more than {CASES} cases in all"),
)
# The options of each command.
BOUNDS = {
    "normal": ["--nodes", str(NODES), "--clauses", str(CLAUSES)],
    "same": ["--nodes", str(NODES), "--clauses", str(CLAUSES)],
    "conflicts": ["--nodes", str(NODES), "--cases", str(CASES)],
    "matrix": ["--nodes", str(NODES), "--cases", str(CASES)],
}


def command(program, folder, name, lists):
    paths = [os.path.join(folder, f"{at}.txt") for at in range(len(lists))]
    for path, text in zip(paths, lists):
        with open(path, "w", encoding="ascii") as file:
            file.write(text)
    return [program, name, *paths, *BOUNDS[name]]


def refused(asked, said):
    """Runs a command that has to be refused for what is said, and returns its processor seconds."""
    with tempfile.TemporaryFile() as told:
        process = subprocess.Popen(asked, stdin=subprocess.DEVNULL, stdout=subprocess.DEVNULL, stderr=told)
        _, status, usage = os.wait4(process.pid, 0)
        process.returncode = os.waitstatus_to_exitcode(status)
        told.seek(0)
        text = told.read().decode(errors="replace")
    if process.returncode != REFUSED or said not in text:
        sys.exit(f"bounds.py: {asked[1]}: status {process.returncode}, {text[:200]!r}")
    return usage.ru_utime + usage.ru_stime


def is_met(program, shape, runs):
    """Prints what a refusal took, and returns whether it was no more than it may take."""
    name, run, lists, said = shape
    with tempfile.TemporaryDirectory(prefix="bounds-") as folder:
        asked = command(program, folder, run, lists)
        seconds = min(refused(asked, said) for _ in range(runs))
        mib = peak(asked, REFUSED) / 1024
    is_within = seconds <= SECONDS and mib <= MIB
    print(f"{name:10}  {seconds:8.2f}  {mib:7.0f}{'' if is_within else '  MISSED'}", flush=True)
    return is_within


def main():
    words = argparse.ArgumentParser(description=__doc__, formatter_class=argparse.RawDescriptionHelpFormatter)
    program = os.path.join(HERE, "..", "crates", "reqs_cli", "out", "reqs_cli")
    words.add_argument("program", nargs="?", default=os.path.normpath(program))
    words.add_argument("--runs", metavar="N", type=int, default=3)
    words = words.parse_args()
    print(f"list         seconds      MiB (at most {SECONDS} and {MIB})")
    met = [is_met(os.path.abspath(words.program), it, words.runs) for it in SHAPES]
    return 0 if all(met) else 1


if __name__ == "__main__":
    sys.exit(main())
