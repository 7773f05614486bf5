"""The toolchain's command `rt` as a module, so that what is proved here is judged by its very code.

`rt` finds the crates below one, and the sum of a crate's sources, anew on each path through crates.txt that leads to
it: some minutes of a gate. Here each is found once a run.
"""

import importlib.machinery
import importlib.util
import os
import sys

from crates import kit_folder

# What is used of the two modules.
NAMES = (
    "Crate", "ci", "in_lanes", "need", "put_back", "rtlib", "stop", "handles_of", "processors", "free",
    "checked", "must_fail", "unread",
)
LIBRARY_NAMES = ("Crate", "crates_below", "lock", "guarded", "text_of")


# Variables by which `rt` does otherwise. No verdict rests on them.
VARIABLES = ("CC", "CFLAGS", "RT_ALLOW_C", "RT_BACKEND", "RT_SECONDS")


class Unknown(Exception):
    """This toolchain's `rt` isn't made as the one that is known here."""


def load():
    """Returns the module of `rt`, made to find each crate's sum and what stands below it once."""
    path = os.path.join(kit_folder(), "bin", "rt")
    for it in VARIABLES:
        os.environ.pop(it, None)
    sys.dont_write_bytecode = True
    try:
        loader = importlib.machinery.SourceFileLoader("rt", path)
        module = importlib.util.module_from_spec(importlib.util.spec_from_loader("rt", loader))
        loader.exec_module(module)
        lacking = [it for it in NAMES if not hasattr(module, it)]
        lacking += [it for it in LIBRARY_NAMES if not hasattr(module.rtlib, it)]
    except (OSError, SyntaxError, ImportError) as error:
        raise Unknown(str(error)) from error
    if lacking or not hasattr(module.Crate, "ci"):
        raise Unknown(f"it has no {', '.join(lacking) or 'Crate.ci'}")
    find_once(module.rtlib.Crate, "below")
    find_once(module.rtlib.Crate, "stamp")
    if hasattr(module, "Kept"):
        keep_nothing(module.Kept)
    return module


def prove_all(rt):
    """Runs `rt ci`, which proves all anew. Kits before 13f keep nothing, and have no word for that."""
    return rt.ci(anew=True) if hasattr(rt, "Kept") else rt.ci()


def is_refused(rt, kind):
    """Whether what `rt must-fail` says first of an edit is that it was refused. Kits before 13f say it by a truth value."""
    return kind == getattr(rt, "REFUSED", True)


def keep_nothing(kept):
    """Has `rt` keep nothing of its own, and so take nothing: what is proved here is kept in the gate's store."""
    begin = kept.__init__

    def begin_without_a_place(self, crates, anew=False):
        begin(self, crates, anew)
        self.at = None

    kept.__init__ = begin_without_a_place
    # (they sum up libraries that aren't laid out, and say that nothing is kept)
    kept.is_built = kept.tell = lambda self, *_: None


def find_once(crate, name):
    """Has a method with no arguments keep what it found for each crate."""
    whole, kept = getattr(crate, name), f"_{name}_found"

    def found(self):
        # (a crate asks what stands below it while it is being made)
        if not hasattr(self, "deps") or kept not in self.__dict__:
            self.__dict__[kept] = whole(self)
        answer = self.__dict__[kept]
        return list(answer) if isinstance(answer, list) else answer

    setattr(crate, name, found)
