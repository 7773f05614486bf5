#!/usr/bin/env python3
"""Times `reqs check` on one line whose marker no small tree has: N pairs of extras, joined by `or` or by `and`.

    pairs.py [PROGRAM] [--sizes N,..] [--runs N] [--most SECONDS] [--write]

PROGRAM is crates/reqs_cli/out/reqs_cli where none is named (`./build reqs_cli` makes it). The marker is
`extra == 'a0' and extra == 'b0' or extra == 'a1' and ..`, or `(extra == 'a0' or extra == 'b0') and ..`. Both are asked with
the extras of the first pair, so that the one holds and the other doesn't. Times are the least processor seconds of several
runs of the whole process. The exit status is 1 where an answer is wrong, where a line took longer than SECONDS, by default
0.01 up to 20 pairs, 0.02 up to 1,000 and 0.5 up to 100,000, or where the memory that it took beside what the program holds
on one pair is more than 20 times its text. With `--write` the times go to bench/figures.json, if it is 0.
"""

import os
import sys
import tempfile

import figures
from run import peak
from sized import timed, words_of

# Up to so many pairs a line may take so many seconds; a longer one is only timed.
MOST = ((20, 0.01), (1000, 0.02), (100_000, 0.5))
MOST_MEMORY = 20
ENVIRONMENT = """{"implementation_name": "cpython", "implementation_version": "3.12.3", "os_name": "posix",
"platform_machine": "x86_64", "platform_python_implementation": "CPython", "platform_release": "6.1", "platform_system": "Linux",
"platform_version": "#1", "python_full_version": "3.12.3", "python_version": "3.12", "sys_platform": "linux"}
"""
SHAPES = {
    "or": ("extra == 'a{0}' and extra == 'b{0}'", " or ", "foo 1\n"),
    "and": ("(extra == 'a{0}' or extra == 'b{0}')", " and ", ""),
}


def prepare(folder, shape, size):
    """Writes the inputs, and returns the program's words and the length of the line in bytes."""
    pair, word, _ = SHAPES[shape]
    line = "foo ; " + word.join(pair.format(number) for number in range(size)) + "\n"
    for name, text in (("list.txt", line), ("environment.json", ENVIRONMENT), ("candidates.txt", "foo 1\n")):
        with open(os.path.join(folder, name), "w", encoding="ascii") as file:
            file.write(text)
    return ["check", "list.txt", "environment.json", "candidates.txt", "a0", "b0"], len(line)


def measured(program, shape, size, runs):
    """The answers, the least processor seconds, the peak in KiB and the length of the line."""
    with tempfile.TemporaryDirectory() as folder:
        words, length = prepare(folder, shape, size)
        ran = [timed([program, *words], folder) for _ in range(runs)]
        os.chdir(folder)
        held = peak([program, *words])
        os.chdir("/")
    return [said for said, _ in ran], min(seconds for _, seconds in ran), held, length


def most_seconds(size, asked):
    """The most seconds that so many pairs may take: those that were asked for, if any, or those of MOST."""
    own = next((seconds for up_to, seconds in MOST if size <= up_to), None)
    return own if asked is None or own is None else asked


def main():
    words = figures.read_words(words_of(__doc__, "reqs_cli", [20, 1000, 10_000, 100_000], most=None))
    program, failed, made = os.path.abspath(words.program), False, {}
    print("shape     pairs  processor seconds  KiB  of the text")
    for shape, (_, _, answer) in SHAPES.items():
        least_held = measured(program, shape, 1, 1)[2]
        for size in words.sizes:
            said, seconds, held, length = measured(program, shape, size, words.runs)
            share = 1024 * max(held - least_held, 0) / length
            print(f"{shape:5}  {size:8}  {seconds:17.3f}  {held}  {share:.1f} times", flush=True)
            made[f"pairs.{shape}.{size}.cpu"] = seconds, "s", "reqs_cli"
            is_wrong = any(it != answer for it in said)
            most = most_seconds(size, words.most)
            is_long = most is not None and (seconds > most or share > MOST_MEMORY and size >= 1000)
            failed = failed or is_wrong or is_long
            if is_wrong:
                print(f"  wrong: {said[0][-80:]!r}")
    if words.write and not failed:
        figures.put(made)
    return 1 if failed else 0


if __name__ == "__main__":
    sys.exit(main())
