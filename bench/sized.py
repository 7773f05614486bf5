"""What the scripts share that time a program on inputs of rising sizes."""

import argparse
import os
import resource
import subprocess
import sys
import tempfile

sys.dont_write_bytecode = True
import figures

CRATES = os.path.join(os.path.dirname(os.path.abspath(__file__)), "..", "crates")


def numbers(text):
    return [int(word) for word in text.replace("_", "").split(",")]


def words_of(description, program, sizes, most=1.0):
    """A parser of the words that each of these scripts takes."""
    words = argparse.ArgumentParser(
        description=description, formatter_class=argparse.RawDescriptionHelpFormatter
    )
    place = os.path.join(CRATES, program, "out", program)
    words.add_argument("program", nargs="?", default=os.path.normpath(place))
    words.add_argument("--sizes", metavar="N,..", type=numbers, default=sizes)
    words.add_argument("--runs", metavar="N", type=int, default=5)
    words.add_argument("--most", metavar="SECONDS", type=float, default=most)
    return words


def timed(command, folder):
    """Runs the command in the folder. Returns what it says and the processor seconds that it took."""
    began = resource.getrusage(resource.RUSAGE_CHILDREN)
    ended = subprocess.run(command, cwd=folder, stdout=subprocess.PIPE, check=True)
    after = resource.getrusage(resource.RUSAGE_CHILDREN)
    return ended.stdout.decode(), after.ru_utime + after.ru_stime - began.ru_utime - began.ru_stime


def measure(words, prepare, limited, name):
    """Prints a table of the least times by size, and ends the script: with 1 where an answer is wrong, or where a size
    of at most `limited` took longer than it may. Else the times are written where that is asked, under the name and the size.

    `prepare(folder, size)` writes the inputs, and returns the program's arguments and what it has to say.
    """
    program, made = os.path.abspath(words.program), {}
    failed = False
    print("   size  processor seconds")
    for size in words.sizes:
        with tempfile.TemporaryDirectory() as folder:
            arguments, answer = prepare(folder, size)
            runs = [timed([program, *arguments], folder) for _ in range(words.runs)]
        least = min(seconds for _, seconds in runs)
        print(f"{size:7}  {least:17.3f}", flush=True)
        made[f"{name}.{size}.cpu"] = least, "s", os.path.basename(program)
        wrong = [said for said, _ in runs if said != answer]
        if wrong:
            print(f"  wrong: {wrong[0][-80:]}")
            failed = True
        if size <= limited and least > words.most:
            failed = True
    if words.write and not failed:
        figures.put(made)
    sys.exit(1 if failed else 0)
