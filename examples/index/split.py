#!/usr/bin/env python3
"""Splits a requirement list and a candidate list, of any length, into pieces
by package, for `run.py`.

A piece has all lines of both lists that name a package of some range of names,
in their order. So the lines and the candidates of a package meet in one piece,
however its name is spelled. Each list is read once, a line at a time. Where a
piece has more than BYTES of a list, it is split again, by the next letter of
the names in it, down to a single package.

FOLDER, which must not be there, gets of each piece its two lists, the numbers
that their lines have in the whole ones, and in `index.json` the pieces by the
names in them. Blank lines and comments are left out.

The status is 0; 2 where a list is no UTF-8, or a line, or all lines of a single
package, have more than 16,777,216 bytes; 3 where a file can't be read or
written. Then there is no folder. What else is wrong with a line `run.py` tells.
"""

import argparse
import functools
import json
import os
import re
import shutil
import sys
import tempfile
from typing import Callable, Dict, Iterator, List, Tuple, cast

NAME = "split.py"
LISTS = ("requirements", "candidates")
# What the library reads of a list, and what a piece has of one unless it is a single package's.
LIMIT, MOST = 16_777_216, 2_097_152
# The bytes of a line's number.
WIDTH = 8

# White space, as the library takes it, and behind it the name of a package, if one stands there.
WHITE = rb"(?:[\t-\r ]|\xc2[\x85\xa0]|\xe1\x9a\x80|\xe2\x80[\x80-\x8a\xa8\xa9\xaf]|\xe2\x81\x9f|\xe3\x80\x80)*"
front_of = cast(Callable[[bytes], "re.Match[bytes]"], re.compile(WHITE + rb"([A-Za-z0-9._-]*)").match)
# A name's normal form but for runs of `-`.
NORMAL = bytes.maketrans(b"ABCDEFGHIJKLMNOPQRSTUVWXYZ._", b"abcdefghijklmnopqrstuvwxyz--")

# A line's number, in WIDTH bytes; the normal name of its package; its bytes with the line's end.
Line = Tuple[bytes, bytes, bytes]


class Refused(Exception):
    """Why there are no pieces."""


def normal_name(name: bytes) -> bytes:
    found = name.translate(NORMAL)
    while b"--" in found:
        found = found.replace(b"--", b"-")
    return found


def lines_of(path: str) -> Iterator[Line]:
    """The lines of a list, but for blank ones and comments. One without a name is refused by the library, so that no later
    one of these counts."""
    offset, is_refused = 0, False
    with open(path, "rb") as file:
        for number, line in enumerate(iter(functools.partial(file.readline, LIMIT + 1), b""), 1):
            if not line.isascii() or len(line) > LIMIT:
                check_line(path, number, offset, line)
            offset += len(line)
            front = front_of(line)
            if front[1]:
                yield number.to_bytes(WIDTH, "little"), normal_name(front[1]), line
            elif not is_refused and line[front.end() : front.end() + 1] not in (b"", b"#"):
                is_refused = True
                yield number.to_bytes(WIDTH, "little"), b"", line


def check_line(path: str, number: int, offset: int, line: bytes) -> None:
    if len(line) > LIMIT:
        raise Refused(f"{path}: line {number}: longer than {LIMIT} bytes")
    try:
        line.decode()
    except UnicodeDecodeError as error:
        raise Refused(f"{path}: not UTF-8 at byte {offset + error.start}") from None


class Piece:
    """Some packages' lines of both lists, in files of a folder."""

    def __init__(self, folder: str, number: int, name: bytes) -> None:
        self.number = number
        self.first = self.last = name
        self.paths = [os.path.join(folder, f"{number}.{it}") for it in LISTS]
        self.files = [(open(it, "wb"), open(f"{it}.lines", "wb")) for it in self.paths]
        self.sizes = [0, 0]

    def add(self, kind: int, number: bytes, name: bytes, text: bytes) -> None:
        if not self.first <= name <= self.last:
            self.first, self.last = min(name, self.first), max(name, self.last)
        self.sizes[kind] += len(text)
        texts, numbers = self.files[kind]
        texts.write(text)
        numbers.write(number)

    def close(self) -> None:
        for file in (it for pair in self.files for it in pair):
            file.close()

    def remove(self) -> None:
        for path in self.paths:
            os.remove(path)
            os.remove(f"{path}.lines")

    def lines(self, kind: int) -> Iterator[Line]:
        with open(self.paths[kind], "rb") as texts, open(f"{self.paths[kind]}.lines", "rb") as numbers:
            for text in texts:
                yield numbers.read(WIDTH), normal_name(front_of(text)[1]), text

    def told(self) -> Dict[str, object]:
        """What the index says of it."""
        names = {"first": self.first.decode(), "last": self.last.decode()}
        return {"piece": self.number, **names, **dict(zip(LISTS, self.sizes))}


class Splitter:
    """Makes pieces in a folder, which have at most so many bytes of a list."""

    def __init__(self, folder: str, most: int) -> None:
        self.folder, self.most, self.made = folder, most, 0

    def new_piece(self, name: bytes = b"") -> Piece:
        """A piece for lines of this name, and of more."""
        self.made += 1
        return Piece(self.folder, self.made, name)

    def pieces(self, lines: Callable[[int], Iterator[Line]], letters: int) -> Iterator[Piece]:
        """The pieces of two lists, by name. All names in these have all but the last of so many letters in common."""
        parts = self.parts(lines, letters)
        for piece in (parts[it] for it in sorted(parts)):
            if max(piece.sizes) <= self.most:
                yield piece
            elif piece.first == piece.last:
                check_size(piece)
                yield piece
            else:
                yield from self.pieces(piece.lines, len(os.path.commonprefix((piece.first, piece.last))) + 1)
                piece.remove()

    def parts(self, lines: Callable[[int], Iterator[Line]], letters: int) -> Dict[bytes, Piece]:
        """Two lists by the first letters of names: at most 38 pieces."""
        found: Dict[bytes, Piece] = {}
        try:
            for kind in range(len(LISTS)):
                for number, name, text in lines(kind):
                    key = name[:letters]
                    if key not in found:
                        found[key] = self.new_piece(name)
                    found[key].add(kind, number, name, text)
        finally:
            for piece in found.values():
                piece.close()
        return found

    def empty(self) -> Piece:
        piece = self.new_piece()
        piece.close()
        return piece


def check_size(piece: Piece) -> None:
    for kind, size in zip(LISTS, piece.sizes):
        if size > LIMIT:
            raise Refused(f"{kind}: the lines of {piece.first.decode()} have {size} bytes, and more than {LIMIT}")


def split(paths: List[str], folder: str, most: int) -> int:
    """Writes the pieces of the two lists, beside and then under their name. Returns how many there are."""
    if os.path.lexists(folder):
        raise Refused(f"{folder} is there already")
    place, name = os.path.split(os.path.abspath(folder))
    beside = tempfile.mkdtemp(prefix=f"{name}.", dir=place)
    try:
        splitter = Splitter(beside, most)
        found = list(splitter.pieces(lambda kind: lines_of(paths[kind]), 1)) or [splitter.empty()]
        with open(os.path.join(beside, "index.json"), "w", encoding="utf-8") as file:
            json.dump([it.told() for it in found], file, indent=1)
        os.chmod(beside, 0o755)
        os.rename(beside, folder)
    except BaseException:
        shutil.rmtree(beside, ignore_errors=True)
        raise
    return len(found)


def size_of(word: str) -> int:
    size = int(word)
    if not 1 <= size <= LIMIT:
        raise argparse.ArgumentTypeError(f"not from 1 to {LIMIT}")
    return size


def main() -> int:
    words = argparse.ArgumentParser(prog=NAME, description=__doc__, formatter_class=argparse.RawDescriptionHelpFormatter)
    words.add_argument("requirements", metavar="REQUIREMENTS", help="a requirement a line")
    words.add_argument("candidates", metavar="CANDIDATES", help="a name and a version a line")
    words.add_argument("folder", metavar="FOLDER", help="where the pieces go")
    words.add_argument("--most", metavar="BYTES", type=size_of, default=MOST, help="of a list in a piece (%(default)s)")
    asked = words.parse_args()
    try:
        count = split([asked.requirements, asked.candidates], asked.folder, asked.most)
    except Refused as error:
        print(f"{NAME}: {error}", file=sys.stderr)
        return 2
    except OSError as error:
        print(f"{NAME}: {error.filename}: {error.strerror}", file=sys.stderr)
        return 3
    print(f"{NAME}: {count} pieces", file=sys.stderr)
    return 0


if __name__ == "__main__":
    sys.exit(main())
