#!/usr/bin/env python3
"""Makes an index to try `split.py` and `run.py` on: requirements.txt,
candidates.txt and environments.json in FOLDER.

CANDIDATES lines name PACKAGES packages, in no order: a few packages have many,
as in an index. Of ten packages nine are required by a line, and each tenth of
these by one more in another spelling; so there are nearly as many lines as
packages. They are what real lists hold, in about such shares: a third have a
marker, a seventh extras, one of a hundred a URL and one of two hundred `===`;
comments and blank lines stand between. The same words make the same files.
"""

import argparse
import itertools
import json
import os
import random
import sys
from typing import Dict, Iterator, List

TOP = os.path.join(os.path.dirname(os.path.abspath(__file__)), "..", "..")
sys.dont_write_bytecode = True
sys.path.insert(0, os.path.join(TOP, "bench"))

import workload  # noqa: E402


def spelled(rng: random.Random, name: str) -> str:
    """A package's name in some spelling."""
    return "".join(rng.choice("-_.") if it in "-_." else rng.choice((it, it.upper())) for it in name)


def candidate_lines(rng: random.Random, names: List[str], count: int, pinned: Dict[str, str]) -> Iterator[str]:
    """So many candidates, with a version of each package in `pinned`."""
    weights = list(itertools.accumulate(rng.paretovariate(1.4) for _ in names))
    for _ in range(count):
        name = rng.choices(names, cum_weights=weights)[0]
        version = workload.make_full_version(rng)
        if rng.random() < 0.2 or name not in pinned:
            pinned[name] = version
        yield f"{spelled(rng, name) if rng.random() < 0.02 else name} {version}\n"


def requirement_lines(rng: random.Random, names: List[str], pinned: Dict[str, str]) -> Iterator[str]:
    again = rng.sample(names, len(names) // 10)
    asked = [*names, *(spelled(rng, it) for it in again)]
    versions = [pinned.get(it) or workload.make_full_version(rng) for it in (*names, *again)]
    for at in rng.sample(range(len(asked)), len(asked)):
        if rng.random() < 0.005:
            yield f"{asked[at]}==={versions[at]}\n"
        else:
            yield f"{workload.make_full_line(rng, asked[at], versions[at])}\n"
        if rng.random() < 0.02:
            yield "\n"


def make(packages: int, candidates: int, environments: int, seed: int, folder: str) -> None:
    rng = random.Random(seed)
    names = workload.make_names(rng, packages)
    pinned: Dict[str, str] = {}
    os.makedirs(folder, exist_ok=True)
    with open(os.path.join(folder, "candidates.txt"), "w", encoding="utf-8") as file:
        file.writelines(candidate_lines(rng, names, candidates, pinned))
    with open(os.path.join(folder, "requirements.txt"), "w", encoding="utf-8") as file:
        file.writelines(requirement_lines(rng, names[: packages * 9 // 10], pinned))
    with open(os.path.join(folder, "environments.json"), "w", encoding="utf-8") as file:
        json.dump(workload.make_environments(environments, seed), file, indent=1)


def main() -> int:
    words = argparse.ArgumentParser(
        prog="make.py", description=__doc__, formatter_class=argparse.RawDescriptionHelpFormatter
    )
    words.add_argument("packages", type=int, metavar="PACKAGES")
    words.add_argument("candidates", type=int, metavar="CANDIDATES")
    words.add_argument("folder", metavar="FOLDER")
    words.add_argument("--environments", type=int, default=100, metavar="N", help="how many environments (%(default)s)")
    words.add_argument("--seed", type=int, default=1, metavar="N", help="makes other files (%(default)s)")
    asked = words.parse_args()
    try:
        make(asked.packages, asked.candidates, asked.environments, asked.seed, asked.folder)
    except OSError as error:
        print(f"make.py: {error.filename}: {error.strerror}", file=sys.stderr)
        return 3
    return 0


if __name__ == "__main__":
    sys.exit(main())
