"""The store of what was proved: a folder outside the tree, by sums of all that a proof rests on.

It stands in $FOWLYORE_CACHE, else in $XDG_CACHE_HOME/fowlyore, else in ~/.cache/fowlyore. It holds folders (a proved
library, a built program), packed, and verdicts, a line each. An entry is written beside and renamed, and its sum is a
verdict, so that half of one, or a damaged one, is never taken; what was not used for longest goes first once all is
more than MOST_BYTES. What was used in the last hours stays all the same: a run finds an entry long before it takes it.
Who can write the store decides what a gate that reads it takes for proved.
"""

import errno
import os
import shutil
import tarfile
import tempfile
import time
import zlib

from crates import sum_of_file

MOST_BYTES = 10_000_000_000
# A run that found an entry has taken it after so many seconds.
IN_USE = 4 * 3600
# A file that was being written for longer than this was left by a run that was killed.
LEFT_OVER = 6 * 3600
FULL = (errno.ENOSPC, errno.EDQUOT)


def default_folder():
    named = os.environ.get("FOWLYORE_CACHE")
    if named:
        return os.path.abspath(named)
    cache = os.environ.get("XDG_CACHE_HOME") or os.path.join(os.path.expanduser("~"), ".cache")
    return os.path.join(cache, "fowlyore")


class Store:
    """The store in a folder; with `reads` false nothing is taken from it, and what is proved is kept all the same."""

    def __init__(self, folder=None, reads=True):
        self.folder, self.reads = folder or default_folder(), reads
        self.has_room, self.sums = True, {}
        try:
            for it in ("packed", "told", "writing"):
                os.makedirs(os.path.join(self.folder, it), exist_ok=True)
            self.drop_left_overs()
        except OSError:
            self.has_room = False

    def path(self, kind, name):
        return os.path.join(self.folder, kind, name)

    def has(self, name, parts):
        """Whether there is an entry as it was written, with these files or folders."""
        path = self.path("packed", f"{name}.tar.gz")
        if not self.reads or not os.path.isfile(path) or self.verdict(f"{name}.sum") != self.sum_found(path):
            return False
        try:
            # (read as far as to the last of them, and they stand first)
            left = {*parts}
            with tarfile.open(path, "r:gz") as packed:
                while left:
                    inside = packed.next()
                    if inside is None:
                        return False
                    left.discard(inside.name)
            os.utime(path)
            return True
        except (OSError, EOFError, tarfile.TarError, zlib.error):
            return False

    def sum_found(self, path):
        """The sum of an entry's file, which is found once: an entry that is written anew is another file."""
        seen = os.stat(path)
        key = seen.st_ino, seen.st_size
        if key not in self.sums:
            self.sums[key] = sum_of_file(path)
        return self.sums[key]

    def take(self, name, folder, parts):
        """Unpacks an entry below a folder. Says whether it was there, and as it was written, with these in it."""
        path = self.path("packed", f"{name}.tar.gz")
        if not self.reads or not os.path.isfile(path):
            return False
        if self.verdict(f"{name}.sum") != sum_of_file(path):
            remove(path)
            return False
        try:
            with tempfile.TemporaryDirectory(dir=folder, prefix=".taken-") as room:
                with tarfile.open(path, "r:gz") as packed:
                    packed.extractall(room, **({"filter": "tar"} if hasattr(tarfile, "tar_filter") else {}))
                if not all(os.path.exists(os.path.join(room, it)) for it in parts):
                    raise tarfile.TarError(f"{name} lacks a part")
                for it in os.listdir(room):
                    remove(os.path.join(folder, it))
                    os.rename(os.path.join(room, it), os.path.join(folder, it))
            os.utime(path)
            return True
        except (OSError, EOFError, tarfile.TarError, zlib.error) as error:
            # (a full disk says nothing of the entry)
            if getattr(error, "errno", None) not in FULL:
                remove(path)
            return False

    def keep(self, name, folder, parts):
        """Packs these parts of a folder as an entry. A store that can't be written keeps nothing, and that is all."""
        if not self.has_room:
            return
        try:
            made, written = tempfile.mkstemp(dir=self.path("writing", ""))
            with os.fdopen(made, "wb") as file, tarfile.open(fileobj=file, mode="w:gz", compresslevel=1) as packed:
                for it in parts:
                    packed.add(os.path.join(folder, it), arcname=it)
            self.keep_verdict(f"{name}.sum", sum_of_file(written))
            os.replace(written, self.path("packed", f"{name}.tar.gz"))
            self.drop_oldest()
        except (OSError, tarfile.TarError):
            remove(written)

    def verdict(self, name):
        """The line that was kept under a name, or None."""
        path = self.path("told", name)
        if not self.reads:
            return None
        try:
            with open(path, encoding="utf-8") as file:
                line = file.read()
            os.utime(path)
        except OSError:
            return None
        return line.rstrip("\n") if line.endswith("\n") else None

    def keep_verdict(self, name, line):
        if not self.has_room:
            return
        try:
            made, written = tempfile.mkstemp(dir=self.path("writing", ""))
            with os.fdopen(made, "w", encoding="utf-8") as file:
                file.write(line + "\n")
            os.replace(written, self.path("told", name))
        except OSError:
            remove(written)

    def drop_oldest(self):
        entries = []
        for kind in ("packed", "told"):
            for it in os.scandir(self.path(kind, "")):
                seen = it.stat()
                entries.append((seen.st_mtime, seen.st_size, it.path))
        entries.sort()
        total = sum(size for _, size, _ in entries)
        for used, size, path in entries:
            if total <= MOST_BYTES or used > time.time() - IN_USE:
                break
            remove(path)
            total -= size

    def drop_left_overs(self):
        for it in os.scandir(self.path("writing", "")):
            if time.time() - it.stat().st_mtime > LEFT_OVER:
                remove(it.path)


def remove(path):
    if os.path.isdir(path) and not os.path.islink(path):
        shutil.rmtree(path, ignore_errors=True)
        return
    try:
        os.remove(path)
    except OSError:
        pass
