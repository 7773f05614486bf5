#!/usr/bin/env python3
"""Times `reqs check` on N lines and N candidates of one package.

    one_package.py [PROGRAM] [--one-line] [--also SPECIFIER].. [--version FORM] [--sizes N,..] [--runs N]
                   [--most SECONDS] [--write]

PROGRAM is crates/reqs_cli/out/reqs_cli where none is named (`./build` makes it). The lines are `pip!=K.5` in no
order, and the candidates `pip K.0` rise, so that each of them lies above the best before it and each line takes
it: asked one by one that would be N times N questions. With --one-line one line has all N specifiers. Each SPECIFIER
is a line more, with {} for the number of the last candidate, which it has to take: `==={}.0`, `<{}.0.post1`. FORM is a
candidate's version with {} for its number, `{}.0` where none is named: `{}.0+cpu` and `{}.0.post1` give each a local
part and a post-release. Times are the least processor seconds of several runs of the whole process. The exit status is
1 where an answer is wrong, or where 20,000 or fewer took longer than SECONDS, 1 by default. With `--write` the times
go to bench/figures.json, if it is 0; not with --also or --version, by which they are of something else.
"""

import json
import os
import random

import figures
from sized import measure, words_of
from workload import ENVIRONMENT


def write(folder, name, lines):
    with open(os.path.join(folder, name), "w", encoding="ascii") as file:
        file.writelines(f"{line}\n" for line in lines)
    return name


def prepare(folder, size, words):
    members = [f"!={number}.5" for number in range(size)]
    random.Random(7).shuffle(members)
    lines = [f"pip{it}" for it in ([",".join(members)] if words.one_line else members)]
    lines += [f"pip{it.format(size - 1)}" for it in words.also]
    candidates = [f"pip {words.version.format(number)}" for number in range(size)]
    inputs = [
        write(folder, "requirements.txt", lines),
        write(folder, "environment.json", [json.dumps(ENVIRONMENT)]),
        write(folder, "candidates.txt", candidates),
    ]
    return ["check", *inputs], f"{candidates[-1]}\n"


def main():
    parser = words_of(__doc__, "reqs_cli", [5000, 10000, 20000])
    parser.add_argument("--one-line", action="store_true")
    parser.add_argument("--also", metavar="SPECIFIER", action="append", default=[])
    parser.add_argument("--version", metavar="FORM", default="{}.0")
    words = figures.read_words(parser)
    if words.write and (words.also or words.version != "{}.0"):
        parser.error("--write goes with neither --also nor --version")
    name = "one_package.one_line" if words.one_line else "one_package.lines"
    measure(words, lambda folder, size: prepare(folder, size, words), 20000, name)


main()
