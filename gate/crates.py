"""The crates of crates.txt, and the sums by which the store knows what was proved of them."""

import functools
import hashlib
import os
import subprocess

TOP = os.path.dirname(os.path.dirname(os.path.abspath(__file__)))
# What a proof reads of a crate. `rt` takes its program's words and streams from the files beside these folders.
PARTS = ("src", "specs", "proofs")
# What of the toolchain judges, compiles and links; the rest of it is named by the sums in its files WHAT.
TOOLS = ("rattle", "rattle-link", "rattle-test", "rt", "rtlib.py")


class Crate:
    """A crate: its name, what its line says of it, what the line names, and the folder."""

    def __init__(self, name, said, words):
        self.name, self.said, self.words = name, said, words
        self.uses, self.of_kit, self.own_lines = [], [], None
        self.folder = os.path.join(TOP, "crates", name)

    def is_program(self):
        return os.path.isfile(os.path.join(self.folder, "src", "main.rt"))

    def is_static(self):
        """Whether it is a library for C."""
        return "staticlib" in self.said

    def library(self):
        return os.path.join(self.folder, "out", "rlib", f"{self.name}.rlib")

    def text_files(self):
        for part in PARTS:
            for at, folders, names in os.walk(os.path.join(self.folder, part)):
                folders.sort()
                yield from (os.path.join(at, name) for name in sorted(names))

    def own_sum(self):
        """The sum of the crate's own texts and of its line in crates.txt."""
        total = hashlib.sha256(repr((self.name, self.words, *self.said)).encode())
        for path in self.text_files():
            total.update(repr((os.path.relpath(path, self.folder), sum_of_file(path))).encode())
        return total.hexdigest()

    def lines(self):
        """How many lines the crate's own texts have."""
        if self.own_lines is None:
            self.own_lines = sum(lines_of_file(it) for it in self.text_files())
        return self.own_lines

    def memory(self):
        """What a check of the crate takes at most, in bytes: it grows with the crate's lines."""
        return 1_500_000_000 + 700_000 * self.lines()


class Crates(dict):
    """The crates by name, as they stand in crates.txt, lowest first, and their lines."""

    def __init__(self):
        super().__init__()
        self.lines, self.below_of, self.sum_of = {}, {}, {}
        with open(os.path.join(TOP, "crates.txt"), encoding="utf-8") as file:
            for line in file:
                head, colon, words = line.partition("#")[0].partition(":")
                if colon:
                    name, *said = head.split()
                    self[name], self.lines[name] = Crate(name, said, words.split()), line
        for crate in self.values():
            crate.of_kit = ["std", *(it for it in crate.words if it not in self)]
            crate.uses = [it for it in crate.words if it in self]

    def below(self, name):
        """The crates below one, each after those that it uses."""
        if name not in self.below_of:
            found = {}
            for it in self[name].uses:
                found.update({low.name: low for low in [*self.below(it), self[it]]})
            self.below_of[name] = list(found.values())
        return self.below_of[name]

    def around(self):
        """What each proof rests on beside texts of crates: the toolchain and the handles that the repository allows."""
        return toolchain_sum(), handles()

    def sum(self, name):
        """The sum of all that a proof of the crate rests on: its own texts, those of the crates below, and what is around."""
        if name not in self.sum_of:
            rests_on = [self.sum(it) for it in self[name].uses]
            said = repr((*self.around(), self[name].own_sum(), rests_on))
            self.sum_of[name] = hashlib.sha256(said.encode()).hexdigest()
        return self.sum_of[name]


def lines_of_file(path):
    with open(path, "rb") as file:
        return file.read().count(b"\n")


def sum_of_file(path):
    with open(path, "rb") as file:
        return hashlib.sha256(file.read()).hexdigest()


def sum_of_files(paths):
    """The sum of files by their places in the repository; of a folder all files in it count."""
    total = hashlib.sha256()
    for path in paths:
        inside = [path]
        if os.path.isdir(path):
            found = (os.path.join(at, it) for at, _, names in os.walk(path) for it in names)
            inside = sorted(it for it in found if not it.endswith(".pyc"))
        for it in inside:
            total.update(repr((os.path.relpath(it, TOP), sum_of_file(it))).encode())
    return total.hexdigest()


def handles():
    path = os.path.join(TOP, "HANDLES")
    return sum_of_file(path) if os.path.isfile(path) else "none"


@functools.lru_cache(maxsize=None)
def kit_folder():
    """The folder of the toolchain, whose first page `rt doc` names."""
    return os.path.dirname(subprocess.run(["rt", "doc"], capture_output=True, text=True, check=True).stdout.strip())


@functools.lru_cache(maxsize=None)
def toolchain_sum():
    kit = kit_folder()
    named = sorted(it for it in os.listdir(kit) if it.startswith(("WHAT", "KIT-ID")))
    files = [*(os.path.join(kit, it) for it in named), *(os.path.join(kit, "bin", it) for it in TOOLS)]
    said = [(os.path.basename(it), sum_of_file(it)) for it in files if os.path.isfile(it)]
    return hashlib.sha256(repr(said).encode()).hexdigest()
