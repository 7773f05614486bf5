#!/usr/bin/env python3
"""Runs the commands on readers and writers that fail, are interrupted, come in pieces or never end.

    ends.py PROGRAM

Each command is run on the inputs of rows.py, for a text and for an object. By tests/ends.c, preloaded, an input fails at its
first, a middle and its last read, standard output takes each number of bytes below the answer's and then no more, both give or
take one byte at a time, and both are interrupted, up to the limits and past them. Then come ends as a system has them: a full
disk, pipes that are closed, folders, fifos, inputs without an end, files that shrink and grow while they are read, and an
output that is one of the inputs. How each run has to end is worked out here. The last line is `ends: N passed, M failed`;
tests/least.txt says how many there are at least.
"""

import os
import signal
import struct
import subprocess
import sys
import tempfile
import threading
from typing import NamedTuple, Tuple

import runs
from rows import EMPTY, FORMATS, ROWS, USUAL, asking, fault

HERE = os.path.dirname(os.path.abspath(__file__))
ASKS, INTERRUPTIONS, MOST_BYTES = 33_554_432, 1024, 16_777_216
FOREVER = 2**40
# What the library counts, by its place there.
AFTER_END, WRITES, COUNTS = 4, 5, 8
# A text that is longer than what a pipe holds.
NAME = "a" * 200_000


class Ended(NamedTuple):
    """How a run ended, how often each input was read, how often one was after its end, and how often the output was written."""

    status: int
    out: bytes
    err: bytes
    asks: Tuple[int, ...] = ()
    after_end: int = 0
    writes: int = 0


class Runner:
    """Runs the program in a folder with some files, mostly with the library of ends.c before it."""

    def __init__(self, program, library):
        self.program, self.library = program, library

    def __call__(self, words, files, reads="", writes="", prepare=None, out=None):
        with tempfile.TemporaryDirectory(prefix="reqs-ends-") as folder:
            for path, text in files.items():
                with open(os.path.join(folder, path), "wb") as file:
                    file.write(text)
            counts = os.path.join(folder, "counts")
            with open(counts, "wb") as file:
                file.write(bytes(8 * COUNTS))
            if prepare:
                prepare(folder)
            environment = {**os.environ, "LD_PRELOAD": self.library, "ENDS_COUNTS": counts, "ENDS_READ": reads}
            environment.update({"ENDS_WRITE": writes} if writes else {})
            done = self.ended(words, folder, environment, out)
            with open(counts, "rb") as file:
                told = struct.unpack(f"<{COUNTS}Q", file.read())
        return Ended(*done, told[:3], told[AFTER_END], told[WRITES])

    def ended(self, words, folder, environment, out):
        how = {"stdin": subprocess.DEVNULL, "stderr": subprocess.PIPE, "timeout": runs.HANGS, "cwd": folder, "env": environment}
        if out is None:
            done = subprocess.run([self.program, *words], stdout=subprocess.PIPE, **how)
            return done.returncode, done.stdout, done.stderr
        with open(os.path.join(folder, out), "wb") as file:
            done = subprocess.run([self.program, *words], stdout=file, **how)
        return done.returncode, b"", done.stderr


def differences(got, wanted, counts=True):
    """How a run ended otherwise than is wanted."""
    names = Ended._fields if counts else Ended._fields[:3]
    pairs = ((it, getattr(got, it), getattr(wanted, it)) for it in names)
    return [f"{it} is {str(one)[:200]}, not {str(other)[:200]}" for it, one, other in pairs if one != other]


def padded(*asks):
    """How often each input is read, where the others never are."""
    return tuple([*asks, 0, 0, 0][:3])


def byte_by_byte(row):
    """How often each input is read that gives one byte at a time."""
    return padded(*(len(it) + 1 for it in row.inputs.values()))


BYTES = f"0 1 {FOREVER} pieces 1"


# ---- readers and writers by the library


def failing_readers(row, form):
    """Each input fails at its first, a middle and its last read: nothing is written, and no later input is read."""
    before = []
    for place, (path, text) in enumerate(row.inputs.items(), 1):
        last = len(text) + 1
        for at in (1, last // 2, last):
            wanted = Ended(3, b"", fault(form, f"{path}: read fault"), padded(*before, at))
            rules = f"{place} {at} {at} fail 0;{BYTES}"
            yield f"{path} fails at read {at} of {last}", row.words(form), row.inputs, rules, "", wanted
        before.append(last)


def patient_readers(row, form):
    """Inputs that give one byte at a time, and that are interrupted."""
    usual = byte_by_byte(row)
    answer = Ended(row.status, row.answers[form], b"", usual, 0, 1)
    yield "inputs give one byte at a time", row.words(form), row.inputs, BYTES, "", answer
    for first, last in ((1, 1000), (3, 50)):
        wanted = answer._replace(asks=tuple(it and it + last - first + 1 for it in usual))
        rules = f"0 {first} {last} stop 0;{BYTES}"
        yield f"inputs are interrupted from read {first} to {last}", row.words(form), row.inputs, rules, "", wanted


def restless_readers(row, form):
    """Each input is interrupted for ever: it is read up to the limit."""
    if form != "text":
        return
    before = []
    for place, (path, text) in enumerate(row.inputs.items(), 1):
        wanted = Ended(3, b"", fault(form, f"{path}: read fault"), padded(*before, ASKS))
        rules = f"{place} 1 {FOREVER} stop 0;{BYTES}"
        yield f"{path} is interrupted for ever", row.words(form), row.inputs, rules, "", wanted
        before.append(len(text) + 1)


def last_asks(row, form):
    """An input whose end comes by the last read of all that there are, and one whose end would come by the next."""
    if (row.command, form) != ("normal", "text"):
        return
    answer = Ended(row.status, row.answers[form], b"", padded(ASKS), 0, 1)
    refused = Ended(3, b"", fault(form, "R: read fault"), padded(ASKS))
    for stops, wanted in ((ASKS - 2, answer), (ASKS - 1, refused)):
        yield f"R ends behind {stops} interruptions", row.words(form), row.inputs, f"1 1 {stops} stop 0", "", wanted


def failing_writers(row, form):
    """Standard output takes each number of bytes below the answer's and then no more."""
    text, told = row.answers[form], fault(form, "write fault")
    read = tuple(it and 2 for it in byte_by_byte(row))
    for room in range(len(text)):
        wanted = Ended(3, text[:room], told, read, 0, 1 + (room > 0))
        yield f"the output takes {room} bytes", row.words(form), row.inputs, "", f"{room} {FOREVER} 0", wanted
    whole, length = Ended(row.status, text, b"", read, 0, 1), len(text)
    for name, rule, wanted in (
        ("takes one byte at a time", f"{FOREVER} 1 0", whole._replace(writes=length)),
        ("takes nothing", f"{FOREVER} 0 0", Ended(3, b"", told, read, 0, 1)),
        ("is interrupted for ever", f"{FOREVER} 1 {FOREVER}", Ended(3, b"", told, read, 0, INTERRUPTIONS + 1)),
        ("is interrupted just too often", f"{FOREVER} 1 {INTERRUPTIONS + 1}", Ended(3, b"", told, read, 0, INTERRUPTIONS + 1)),
        ("is interrupted just not too often before each byte", f"{FOREVER} 1 {INTERRUPTIONS}",
         whole._replace(writes=length * (INTERRUPTIONS + 1))),
    ):  # fmt: skip
        yield f"the output {name}", row.words(form), row.inputs, "", rule, wanted


def empty_answers(row):
    """An empty answer is no write."""
    read = tuple(1 + (it > 1) if it else 0 for it in byte_by_byte(row))
    yield "an empty answer is written", row.words(), row.inputs, "", "0 0 0", Ended(0, b"", b"", read, 0, 0)


BY_LIBRARY = (failing_readers, patient_readers, restless_readers, last_asks, failing_writers)


def tries_by_library():
    """What is tried by the library: what it is, the run, and how it has to end."""
    for row in ROWS:
        for form in FORMATS:
            for kind in BY_LIBRARY:
                for what, *run, wanted in kind(row, form):
                    yield f"{row.command}, {form}: {what}", run, wanted, True
    for row in EMPTY:
        for what, *run, wanted in empty_answers(row):
            yield f"{row.command}: {what}", run, wanted, True


# ---- ends as a system has them


def with_path(row, form, path, other):
    """The words with another path in place of one."""
    return [row.command, *(other if it == path else it for it in row.inputs), *asking(form)]


def folder_at(path):
    """Puts a folder in the place of a file."""
    def prepare(folder):
        os.remove(os.path.join(folder, path))
        os.mkdir(os.path.join(folder, path))

    return prepare


def fifos_for(row):
    """Puts fifos in the place of all inputs, into which their texts are written piece by piece."""
    def feed(path, text):
        with open(path, "wb", buffering=0) as file:
            for at in range(0, len(text), 7):
                file.write(text[at : at + 7])

    def prepare(folder):
        for path, text in row.inputs.items():
            path = os.path.join(folder, path)
            os.remove(path)
            os.mkfifo(path)
            threading.Thread(target=feed, args=(path, text), daemon=True).start()

    return prepare


def odd_files(row, form):
    """Folders, fifos and inputs without an end in the places of files."""
    for path in row.inputs:
        wanted = Ended(3, b"", fault(form, f"{path}: read fault"))
        yield f"{path} is a folder", [row.words(form), row.inputs, "", "", folder_at(path)], wanted
        wanted = Ended(2, b"", fault(form, f"/dev/zero: longer than {MOST_BYTES} bytes"))
        yield f"{path} never ends", [with_path(row, form, path, "/dev/zero"), row.inputs], wanted
    wanted = Ended(row.status, row.answers[form], b"")
    yield "inputs are fifos", [row.words(form), row.inputs, "", "", fifos_for(row)], wanted
    full = Ended(3, b"", fault(form, "write fault"))
    yield "the disk is full", [row.words(form), row.inputs, "", "", None, "/dev/full"], full


PIECE = 1000


def changing_files(row, form):
    """A list that shrinks or grows while it is read is what was read of it."""
    answer = Ended(row.status, row.answers[form], b"")
    for place, path in enumerate(row.inputs, 1):
        if path == "E":
            continue
        front = row.inputs[path] + b"#" * (PIECE - len(row.inputs[path]) - 1) + b"\n"
        longer = {**row.inputs, path: front + b"-\n" * PIECE}
        rule = f"0 1 {FOREVER} pieces {PIECE}"
        for size in (PIECE, 10, 0):
            yield f"{path} is cut to {size} bytes", [row.words(form), longer, f"{place} 2 2 cut {size} {path};{rule}"], answer
        grown = {**row.inputs, path: front}
        yield f"{path} grows", [row.words(form), grown, f"{place} 2 9 grow 640 {path};{rule}"], answer
        wanted = Ended(2, b"", fault(form, f"{path}: longer than {MOST_BYTES} bytes"))
        yield f"{path} grows for ever", [row.words(form), grown, f"{place} 1 {FOREVER} grow 16384 {path}"], wanted


def tries_by_system():
    for row in ROWS:
        for form in FORMATS:
            for kind in (odd_files, changing_files):
                for what, run, wanted in kind(row, form):
                    yield f"{row.command}, {form}: {what}", run, wanted, False


# ---- outputs of which more than the bytes is looked at


LONG = (
    (["check", "R", "E", "C"], f"{NAME} none\n"),
    (["matrix", "R", "M", "C"], f"env 1\n{NAME} none\n"),
    (["same", "R", "C"], f"no\n{NAME}\nall environments\n"),
    (["covers", "C", "R"], f"no\n{NAME}\nall environments\n1\n"),
    (["conflicts", "R"], f"{NAME} 1\n"),
    (["normal", "R"], f"{NAME}<1,>1\n"),
)  # fmt: skip


def long_files():
    environment = runs.json.dumps(USUAL)
    return {"R": f"{NAME}<1,>1\n", "E": environment, "M": f"[{environment}]", "C": ""}


def piped(program, words, signals, reads):
    """What comes out of a pipe of which some bytes are read before it is closed, and how the program ends."""
    with tempfile.TemporaryDirectory(prefix="reqs-ends-") as folder:
        for path, text in long_files().items():
            with open(os.path.join(folder, path), "w") as file:
                file.write(text)
        come, gone = os.pipe()
        set_signals = (lambda: signal.signal(signal.SIGPIPE, signals)) if signals else None
        how = {"stdin": subprocess.DEVNULL, "stdout": gone, "stderr": subprocess.PIPE, "cwd": folder}
        if not reads:
            os.close(come)
        with subprocess.Popen([program, *words], restore_signals=False, preexec_fn=set_signals, **how) as ran:
            os.close(gone)
            front = b""
            while len(front) < reads:
                front += os.read(come, reads - len(front)) or b"?"
            if reads:
                os.close(come)
            err = ran.stderr.read()
        return Ended(ran.wait(), front, err)


def closed_pipes(program):
    """Pipes that are closed before the answer, and within it."""
    for words, text in LONG:
        for name, signals in (("ignored", signal.SIG_IGN), ("as it is", signal.SIG_DFL)):
            for reads in (0, 1000):
                wanted = Ended(3, text[:reads].encode(), b"reqs: write fault\n")
                got = piped(program, words, signals, reads)
                yield f"{words[0]}: a pipe is closed behind {reads} bytes, with SIGPIPE {name}", differences(got, wanted, False)


# What is answered where an input is empty, since the shell's `>` empties the file: of a command and a path the status and texts.
EMPTIED = {
    ("check", "R"): (0, "", ""),
    ("check", "E"): (2, "", "reqs: E: not JSON\n"),
    ("check", "C"): (0, "foo[a,b,c] none\n", ""),
    ("matrix", "R"): (0, "env 1\nenv 2\n", ""),
    ("matrix", "E"): (2, "", "reqs: E: not JSON\n"),
    ("matrix", "C"): (0, "env 1\nfoo none\nenv 2\n", ""),
    ("same", "LEFT"): (1, "no\nfoo\nall environments\n", ""),
    ("same", "RIGHT"): (1, "no\nfoo\nall environments\n", ""),
    ("covers", "LOCK"): (1, "no\nbar\nall environments\n1\n", ""),
    ("covers", "REQS"): (0, "yes\n", ""),
    ("conflicts", "R"): (0, "", ""),
    ("normal", "R"): (0, "", ""),
}  # fmt: skip


def into_itself(program, row, path, redirected):
    """How a command ends whose output the shell redirects to an input, which then stands in place of what it wrote."""
    with tempfile.TemporaryDirectory(prefix="reqs-ends-") as folder:
        for it, text in row.inputs.items():
            with open(os.path.join(folder, it), "wb") as file:
                file.write(text)
        words = ["-" if it == path and "0" in redirected else it for it in row.inputs]
        line = f'"$0" {row.command} {" ".join(words)} {redirected}'
        how = {"stdin": subprocess.DEVNULL, "capture_output": True, "timeout": runs.HANGS}
        done = subprocess.run(["bash", "-c", line, program], cwd=folder, **how)
        with open(os.path.join(folder, path), "rb") as file:
            return Ended(done.returncode, done.stdout + file.read(), done.stderr)


def outputs_that_are_inputs(program):
    """An output that is an input is written once all is read: behind its text, over its front, or where the shell emptied it."""
    for row in ROWS:
        for path, text in row.inputs.items():
            answer = row.answers["text"]
            status, left, said = EMPTIED[row.command, path]
            for redirected, wanted in (
                (f">>{path}", Ended(row.status, text + answer, b"")),
                (f"1<>{path}", Ended(row.status, answer + text[len(answer) :], b"")),
                (f"0<>{path} 1>&0", Ended(row.status, text + answer, b"")),
                (f">{path}", Ended(status, left.encode(), said.encode())),
            ):
                found = differences(into_itself(program, row, path, redirected), wanted, False)
                yield f"{row.command}: {redirected}", found


def others(program):
    yield from closed_pipes(program)
    yield from outputs_that_are_inputs(program)


def others_count():
    """How many of `others` there are."""
    return 4 * len(LONG) + 4 * len(EMPTIED)


def tries():
    yield from tries_by_library()
    yield from tries_by_system()


def count():
    """How many runs there are."""
    return sum(1 for _ in tries()) + others_count()


def tried(program):
    """What each run is, and what is wrong with how it ended."""
    with tempfile.TemporaryDirectory(prefix="reqs-ends-") as room:
        library = os.path.join(room, "ends.so")
        flags = ["-O2", "-Wall", "-Wextra", "-fno-builtin", "-shared", "-fPIC"]
        subprocess.run(["cc", *flags, "-o", library, os.path.join(HERE, "ends.c")], check=True)
        run = Runner(program, library)
        for what, given, wanted, counts in tries():
            try:
                found = differences(run(*given), wanted, counts)
            except (OSError, subprocess.TimeoutExpired) as error:
                found = [str(error)]
            yield what, found
    yield from others(program)


if __name__ == "__main__":
    sys.exit(runs.command(__doc__, "ends", tried))
