#!/usr/bin/env python3
"""Makes the calls of the library for C on odd texts, with a C compiler's checks of addresses and undefined behaviour around it.

    fuzz.py [--seconds N] [--seed N] [--library PATH]

tests/c/fuzz.c is linked with the archive that `./build reqs_c` makes, where none is named. It makes each call of
tests/c/corpus.jsonl, and then for so many seconds, 600 by itself, calls with texts that are changed from these by what the seed
draws. Each call is made twice, with ample room and with less; so is, beside a command's, the one for its JSON, which has to end
alike. No call may read or write past what it is given, keep memory, reply twice otherwise, name a place outside of its texts, or
print what doesn't read back. A line of corpus.jsonl is a call, its texts, of which `\\udcXX` is the byte XX, and maybe how many
cases, nodes and clauses it may make; a call that fails is printed as such a line. The last line is `fuzz: N passed, M failed`.
"""

import argparse
import json
import os
import struct
import subprocess
import sys
import tempfile

from calls import CALLS, NO_BOUND, request

TOP = os.path.dirname(os.path.dirname(os.path.abspath(__file__)))
CORPUS = os.path.join(TOP, "tests", "c", "corpus.jsonl")
LIBRARY = os.path.join(TOP, "crates", "reqs_c", "out", "libreqs.a")
FLAGS = ("-std=c11", "-D_GNU_SOURCE", "-O1", "-g", "-Wall", "-Wextra", "-Werror", "-fsanitize=address,undefined", "-fno-sanitize-recover=all")
LIMIT = 64


def corpus():
    """The requests of the corpus, as the program reads them."""
    with open(CORPUS, encoding="utf-8") as file:
        for line in file:
            call, texts, *bounds = json.loads(line)
            limit, *most = (*bounds, *(LIMIT, NO_BOUND, NO_BOUND, NO_BOUND)[len(bounds) :])
            yield request(call, [it.encode("utf-8", "surrogateescape") for it in texts], limit, 0, *most)


def line_of(asked):
    """A request as a line of the corpus."""
    which, *bounds, _, count = struct.unpack_from("<7Q", asked)
    at, texts = 56 + 8 * count, []
    for size in struct.unpack_from(f"<{count}Q", asked, 56):
        texts.append(asked[at : at + size].decode("utf-8", "surrogateescape"))
        at += size
    return json.dumps([CALLS[which], texts, *bounds])


def ran(library, seconds, seed=1):
    """Whether all was as it should be, and what is told of it."""
    with tempfile.TemporaryDirectory(prefix="reqs-fuzz-") as room:
        program, asked, current = (os.path.join(room, it) for it in ("fuzz", "corpus", "current"))
        words = ["cc", *FLAGS, f"-I{TOP}/include", "-o", program, os.path.join(TOP, "tests", "c", "fuzz.c"), library]
        compiled = subprocess.run(words, capture_output=True, text=True)
        if compiled.returncode:
            return False, compiled.stderr
        with open(asked, "wb") as file:
            file.writelines(corpus())
        how = {"stdout": subprocess.PIPE, "stderr": subprocess.STDOUT, "errors": "replace"}
        done = subprocess.run([program, asked, current, str(seed), str(seconds)], **how)
        if done.returncode == 0:
            return True, done.stdout
        with open(current, "rb") as file:
            return False, f"status {done.returncode}\n{done.stdout}of the call {line_of(file.read())}"


def main():
    parser = argparse.ArgumentParser(description=__doc__, formatter_class=argparse.RawDescriptionHelpFormatter)
    parser.add_argument("--seconds", type=int, default=600)
    parser.add_argument("--seed", type=int, default=1)
    parser.add_argument("--library", default=LIBRARY)
    given = parser.parse_args()
    is_so, told = ran(given.library, given.seconds, given.seed)
    print(told if is_so else f"FAILED: {told}")
    print(f"fuzz: {int(is_so)} passed, {int(not is_so)} failed")
    return 0 if is_so else 1


if __name__ == "__main__":
    sys.exit(main())
