"""What a check of a crate sees: its own texts, and those of the crates below it but the bodies of functions and the proofs of
these. Comments and docstrings say nothing to a check, and are left out of all of them.

A function's proof rests on the contracts of what it calls, and on definitions and lemmas; where these are the same, so is the
verdict on the function. What is linked, a program, its tests or a library for C, rests on all texts as they are.
"""

import os
import re

from clauses import APART, BRACKET, Source, after_brackets
from crates import sum_of_file
from keys import summed

# The files of a function's own proof, which no other proof can name.
OWN_PROOF = ("Answers.antt", "Invariants.antt", "Proof.antt")
# In a file of definitions and proofs: a text in quotes, or a comment.
IN_PROOFS = re.compile(r'"(?:\\.|[^"\\])*"|(?<!\S)--(?!\S)[^\n]*')
COMMENTS = ("//", "/*", "--")
# Functions whose bodies say more than their contracts: what type they return, or what a constant is.
OPAQUE = re.compile(r"->[^{;]*\bimpl\b|^(?:pub(?:\s*\([^)]*\))?\s+)?const\b")


def by(crates, name):
    """The sum of all that the verdicts on a crate's functions rest on."""
    return summed((code_sum(crates[name]), crates.around(), [shown(crates[it.name]) for it in crates.below(name)]))


def code_sum(crate):
    """The sum of a crate's own texts without their comments, and of its line in crates.txt."""
    if not hasattr(crate, "sum_of_code"):
        texts = [(os.path.relpath(it, crate.folder), code_of(it)) for it in crate.text_files()]
        crate.sum_of_code = summed((crate.name, crate.words, crate.said, texts))
    return crate.sum_of_code


def code_of(path):
    """A file's text without its comments, or the sum of a file of another kind."""
    if not path.endswith((".rt", ".antt")):
        return sum_of_file(path)
    with open(path, encoding="utf-8") as file:
        return without_comments(file.read(), APART if path.endswith(".rt") else IN_PROOFS)


def without_comments(text, apart):
    """A text without its comments and what is blank at the ends of lines then, and the texts in quotes in it."""
    quoted = [it[0] for it in apart.finditer(text) if not it[0].startswith(COMMENTS)]
    code = apart.sub(lambda it: " " if it[0].startswith(COMMENTS) else "\0", f"\n{text}")
    return re.sub(r"\s*\n", "\n", code), quoted


def shown(crate):
    """The sum of what crates above one see of it."""
    if not hasattr(crate, "shown_sum"):
        texts = [(os.path.relpath(it, crate.folder), text_of(crate, it)) for it in crate.text_files() if not is_own_proof(crate, it)]
        crate.shown_sum = summed((crate.name, crate.words, crate.said, texts))
    return crate.shown_sum


def is_own_proof(crate, path):
    return path.startswith(os.path.join(crate.folder, "proofs")) and os.path.basename(path) in OWN_PROOF


def text_of(crate, path):
    """The text of a file without comments, and of a source without the bodies of its functions."""
    if not path.endswith(".rt"):
        return code_of(path)
    with open(path, encoding="utf-8") as file:
        text = file.read()
    pieces, at = [], 0
    source = Source(crate, path, text, None)
    for begin, end in sorted(bodies(source, 0, len(text))):
        pieces.append(text[at:begin])
        at = end
    return without_comments("{}".join([*pieces, text[at:]]), APART)


def bodies(source, at, end):
    """The places of the bodies of functions, from a place of a source to another; without those of tests, of functions that
    constants may call, and of those that return a type without a name."""
    for head, _, after in source.items(at, end):
        if head["kind"] == "fn":
            begin = body_of(source, head.end(), after)
            if begin and not OPAQUE.search(source.bare[head.start() : begin]):
                yield begin, after
        elif head["kind"] in ("impl", "mod", "trait") and source.bare[after - 1] == "}":
            begin = source.bare.index("{", head.start())
            yield from bodies(source, begin + 1, after - 1)


def body_of(source, at, after):
    """The place where the body of a function begins, or None where it has none."""
    while True:
        it = BRACKET.search(source.bare, at, after)
        if not it or it[0] == ";":
            return None
        at = after_brackets(source.bare, it.start())
        if it[0] == "{" and not source.clause_at(it.start()):
            return it.start() if at == after else None
