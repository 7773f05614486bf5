"""What the verdict on an edit rests on that changes nothing but bodies of functions: of all other functions the contracts.

A function is proved by its own body and proof, over the contracts of what it calls, definitions and lemmas. So where the edit
changes bodies alone, the bodies of the crate's other functions and their proofs may change, and the verdict stays; of the crates
below that is so in any case (seen.py). An edit of anything else rests on all of its crate's texts, and so does one in a file
some of whose functions are proved together.
"""

import functools
import os

import seen
from clauses import APART, Source
from keys import summed

SOURCES, PROOFS = f"src{os.sep}", f"proofs{os.sep}"


def by(crates, edit):
    """The sum of all that the verdicts on an edit rest on but the edit itself."""
    places = places_of(edit)
    own = own_texts(edit.crate, places) if places else None
    if own is None:
        return seen.by(crates, edit.crate.name)
    return summed((own, crates.around(), [seen.shown(crates[it.name]) for it in crates.below(edit.crate.name)]))


def places_of(edit):
    """By file the places where an edit and its control change sources; None where one changes something else, or what it put
    there itself."""
    found = {}
    for change in edit.changes():
        for file, old, _ in change.parts:
            if not file.startswith(SOURCES):
                return None
            begin = text_of(edit.crate, file).find(old)
            if begin < 0:
                return None
            found.setdefault(file, []).append((begin, begin + len(old)))
    return found


def text_of(crate, file):
    with open(os.path.join(crate.folder, file), encoding="utf-8") as opened:
        return opened.read()


def own_texts(crate, places):
    """The crate's own texts with no bodies but those that have these places; None where a place is in none, or where functions
    of its file are proved together."""
    modules = [module_of(file) for file in places]
    texts = []
    for path in crate.text_files():
        file = os.path.relpath(path, crate.folder)
        if seen.is_own_proof(crate, path):
            folder = os.path.dirname(file)[len(PROOFS) :]
            if not any(is_inside(folder, it) for it in modules):
                continue
            if "+" in folder:
                return None
            texts.append((file, seen.code_of(path)))
        else:
            text = with_bodies(crate, path, places[file]) if file in places else shown_text(crate, path)
            if text is None:
                return None
            texts.append((file, text))
    return crate.name, crate.words, crate.said, texts


def module_of(file):
    """The folder in proofs/ that has the proofs of a source's functions."""
    folders = os.path.splitext(file)[0].split(os.sep)[1:]
    return os.sep.join(folders[: -1 if folders[-1] in ("lib", "main", "mod") else len(folders)])


def is_inside(folder, module):
    return not module or folder == module or folder.startswith(module + os.sep)


@functools.lru_cache(maxsize=None)
def shown_text(crate, path):
    """The sum of the text of a file without the bodies of functions."""
    return summed(seen.text_of(crate, path))


@functools.lru_cache(maxsize=None)
def text_with_bodies(crate, path):
    """A source's text, and where the bodies of functions begin and end in it."""
    with open(path, encoding="utf-8") as file:
        text = file.read()
    return text, sorted(seen.bodies(Source(crate, path, text, None), 0, len(text)))


def with_bodies(crate, path, places):
    """A source without comments and without bodies but those that have these places; None where a place is in no body."""
    text, bodies = text_with_bodies(crate, path)
    pieces, at, had = [], 0, set()
    for begin, end in bodies:
        inside = {it for it in places if begin < it[0] and it[1] < end}
        had |= inside
        pieces += [text[at:begin], text[begin:end] if inside else "{}"]
        at = end
    if had != {*places}:
        return None
    return seen.without_comments("".join([*pieces, text[at:]]), APART)
