#!/usr/bin/env python3
"""Times the range of long lists of specifiers, `!=0.0, !=1.0, ..` with N members.

    list_range.py [PROGRAM] [--sizes N,..] [--runs N] [--most SECONDS] [--write]

PROGRAM is crates/questions/out/questions where none is named (`./build questions` makes it). It is asked of how many intervals the list's range is, which has to be one more than its
members. Times are the least processor seconds of several runs of the whole process, reading the list's text
included. The exit status is 1 where an answer is wrong, or where a list of at most 40,000 members took longer
than SECONDS, 1 by default. With `--write` the times go to bench/figures.json, if it is 0.
"""

import json
import os
import random

import figures
from sized import measure, words_of


def prepare(folder, size):
    members = [f"!={number}.0" for number in range(size)]
    random.Random(7).shuffle(members)
    question = json.dumps(["intervals", ", ".join(members)])
    with open(os.path.join(folder, "pep440_vectors.jsonl"), "w", encoding="ascii") as file:
        file.write(question)
    return [], f"{question} {size + 1}\n"


words = figures.read_words(words_of(__doc__, "questions", [10000, 20000, 40000, 80000]))
measure(words, prepare, 40000, "list_range")
