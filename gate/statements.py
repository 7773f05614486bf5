"""What is stated: the definitions of a crate's specs/, and the public contracts of its sources, each with its whole text.

A statement's text is free of comments and layout. Behind it stand the imports of the names in it, so that a name that
comes to mean another thing is another text. `definitions` reads specs/; clauses.py reads sources.
"""

import hashlib
import os
import re
from typing import NamedTuple

from crates import TOP

# Texts in quotes, within which nothing is a comment, and comments.
TOKEN = re.compile(r'"(?:\\.|[^"\\])*"|--[^\n]*')
WORDS = re.compile(r'"(?:\\.|[^"\\])*"|[^\s"]+')
NAMES = re.compile(r'[^\s(){};,."]+')
USE = re.compile(r"^(?P<shown>pub )?use (?P<path>[^{}\s]+?)(?:\.\{(?P<names>[^{}]*)\}| as (?P<alias>\S+))?\s*$")
BLOCK = re.compile(r"^(?:pub )?module (\S+)")
TYPE = re.compile(r"^(?:[a-z]+ )*(?:record|data) ([^\s()]+)")
PLAIN = re.compile(r"^(?:(?:pub|abbrev|unfoldable|private|opaque) )*([^\s(){}]+) :(?=\s|$)")


class Statement(NamedTuple):
    """A statement's name, the file and line where it begins, and the sum of what it says."""

    name: str
    place: str
    sum: str


def stated(name, path, line, text, imports):
    """A statement of this text, which is laid out in one line already."""
    said = "\n".join([text, *sorted(set(imports))])
    return Statement(name, f"{os.path.relpath(path, TOP)}:{line}", hashlib.sha256(said.encode()).hexdigest()[:16])


def in_one_line(text):
    """The text with one blank between its words, and texts in quotes as they are."""
    return " ".join(WORDS.findall(text))


def without_comments(text):
    """The text with blanks in place of comments."""
    return TOKEN.sub(lambda it: it[0] if it[0][0] == '"' else " " * len(it[0]), text)


def imported(path, names, alias):
    """The names that an import brings in, each with the whole path that it stands for."""
    if names is None:
        yield alias or path.rpartition(".")[2], path
    for it in (names or "").split(","):
        name, _, other = it.strip().partition(" as ")
        if name:
            yield other.strip() or name, f"{path}.{name}"


def imports_of(text, known):
    """The imports among the known ones, by name, that bring in a name of the text."""
    words = set(NAMES.findall(text))
    for name, path in known:
        parts = [it for it in name.split("◌") if it]
        if name in words or "◌" in name and all(it in text for it in parts):
            yield f"{name} = {path}"


class Declared(NamedTuple):
    """What a file of specs/ declares: the name in its module, the heads of the blocks around it, what stands before it
    and its chunks, each of numbered lines."""

    name: str
    around: list
    before: list
    chunks: list

    def line(self):
        return self.chunks[0][0][0]

    def text(self):
        return "\n".join([*self.around, *self.before, *(words_of(it) for it in self.chunks)])


def words_of(lines):
    """Numbered lines in one line, with one blank between words."""
    return in_one_line("\n".join(it for _, it in lines))


def chunks(lines, indent, around):
    """The chunks of numbered lines, and with each the heads of the blocks `module` around it. A chunk is a line at the
    indent and what stands further right below it; of a block those in it."""
    at = 0
    while at < len(lines):
        end, line = at + 1, lines[at][1]
        while end < len(lines) and (indent_of(lines[end][1]) > indent or lines[end][1].strip()[0] in "})"):
            end += 1
        if BLOCK.match(line.strip()):
            body = at + 1
            while not re.search(r"\bwhere$", lines[body - 1][1].rstrip()):
                body += 1
            head, inner = words_of(lines[at:body]), lines[body:end]
            yield from chunks(inner, indent_of(inner[0][1]), [*around, head]) if inner else ()
        else:
            yield lines[at:end], around
        at = end


def indent_of(line):
    return len(line) - len(line.lstrip(" "))


def declared(text):
    """The name that a chunk declares, or None where it goes on with what was declared before it."""
    found = TYPE.match(text.strip()) or PLAIN.match(text.strip())
    return found[1] if found else None


def specs_of(crate):
    """The files of a crate's specs/: the whole name of the module that each is, its path and its text."""
    for path in crate.text_files():
        module, ending = os.path.splitext(os.path.relpath(path, os.path.join(crate.folder, "specs")))
        if ending == ".antt" and not module.startswith(os.pardir):
            with open(path, encoding="utf-8") as file:
                yield f"{crate.name}.{module.replace(os.sep, '.')}", path, file.read()


def definitions(crate):
    """The definitions of a crate's specs/, and what these files pass on."""
    for module, path, text in specs_of(crate):
        known, shown, made = declared_in(path, text)
        for it in [*made, *shown]:
            said = it.text()
            yield stated(f"{module}.{it.name}", path, it.line(), said, imports_of(said, known))


def passed_on(path):
    return "use." + path.removeprefix("Rattle.").replace(".specs.", ".", 1)


def declared_in(path, text):
    """What a file's text imports, by name, what it passes on and what it declares."""
    lines = [it for it in enumerate(without_comments(text).split("\n"), 1) if it[1].strip()]
    known, shown, made, before = [], [], [], []
    for chunk, around in chunks(lines, 0, []):
        words, head = words_of(chunk), "\n".join(it for _, it in chunk)
        use = USE.match(words)
        if use:
            names = [*imported(use["path"], use["names"], use["alias"])]
            known += names
            number = chunk[0][0]
            shown += [Declared(passed_on(of), [], [], [[(number, f"pub use {of}")]]) for _, of in names if use["shown"]]
        elif words.startswith("pub mod "):
            continue
        elif declared(head):
            heads = [re.match(r"module (\S+)", it)[1] for it in around]
            name = ".".join([*(it for it in heads if it != "_"), declared(head)])
            made.append(Declared(name, around, before, [chunk]))
            before = []
        elif re.match(r"infix[lr]? ", words):
            before.append(words)
        elif not made:
            raise ValueError(f"{path}:{chunk[0][0]}: no definition is begun, and here one goes on: {words[:60]}")
        else:
            made[-1].chunks.append(chunk)
    return known, shown, made
