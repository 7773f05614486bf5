"""What rests on a definition: other definitions of its crate, wrong edits, and crates above.

It is found by names alone: a text rests on a definition where it names it, or another that rests on it.
"""

import os
import re

from clauses import apart
from edits import HEADER, edits_of
from mutant_lists import items_of
from prover import read
from statements import NAMES, specs_of


def resting_on(item):
    """The names of a definition, of those of its crate that name it, of those that name one of these, and so on."""
    left = {it.definition.declared.name.rpartition(".")[2]: it.definition.declared.text() for it in items_of([item.crate]).values()}
    found = {item.definition.declared.name.rpartition(".")[2]}
    while found:
        yield found
        left = {name: text for name, text in left.items() if name not in found}
        found = {name for name, text in left.items() if named_in(text, found)}


def named_in(text, names):
    words = set(NAMES.findall(text))
    return any(it in words or "◌" in it and all(part in text for part in it.split("◌") if part) for it in names)


def contract_of(text, function):
    """The clauses of the functions of this name in a file, or None where one of them has none of its own."""
    said, bare = [], apart(text)[1]
    for it in HEADER.finditer(bare):
        if it[2] == function:
            body = re.compile(rf"^{it[1]}\{{[ \t]*$|\{{[ \t]*$|;[ \t]*$", re.M).search(bare, it.start())
            if not body or bare.find("{", it.start()) == body.start():
                return None
            end = re.compile(rf"^{it[1]}\{{[ \t]*$", re.M).search(bare, it.start())
            said.append(text[it.start() : end.start() if end else len(text)])
    return "\n".join(said)


def contracts_of(edit):
    """What stands in the contracts of the functions that an edit changes, or in their file where that isn't found."""
    for file in edit.wrong.over({}):
        text = read(os.path.join(edit.crate.folder, file)) or ""
        for it in edit.wrong.named:
            said = contract_of(text, it.rpartition("::")[2])
            yield text if said is None else said


def edits_resting_on(item):
    """The crate's wrong edits of those functions whose contracts name a definition, or else one that names it, and so on."""
    edits = [it for it in edits_of(item.crate)[0].values() if not it.why and None not in it.wrong.functions]
    said = {it.name: [*contracts_of(it)] for it in edits if item.file not in it.wrong.over({})}
    for names in resting_on(item):
        found = [it for it in edits if any(named_in(text, names) for text in said.get(it.name, ()))]
        if found:
            return found
    return []


def shown(module):
    """How another crate names what a module of definitions has."""
    return f"Rattle.{module.replace('.', '.specs.', 1)}."


def crates_naming(item, crates):
    """The crates above that name a module of definitions that rest on this one, or one that names such a module; nearest first."""
    names = set().union(*resting_on(item))
    own = [it for it in items_of([item.crate]).values() if it.definition.declared.name.rpartition(".")[2] in names]
    modules = {shown(it.name.rpartition(f".{it.definition.declared.name}")[0]) for it in own}
    for crate in crates.values():
        if item.crate.name in {it.name for it in crates.below(crate.name)}:
            texts = [(path, read(path) or "") for path in crate.text_files()]
            if any(it in text for _, text in texts for it in modules):
                modules |= {shown(of) for of, _, text in specs_of(crate) if any(it in text for it in modules)}
                yield crate.name
