#!/usr/bin/env python3
"""Lists the public calls that no question, test or run makes, and holds questions to least counts.

    asked.py

A public call is a function that a user of the libraries can call: one at module level, of a type or of a
trait, where the faces pep440_rs, pep508_rs, reqtable and reqs pass that function, type or trait on, where
crates/reqs_answers, crates/reqs_lists or crates/reqs_io_faults imports it from a crate below, or where it is of the sets of version_ranges,
which specifiers are turned into. None is

- a call whose signature names a type of the crates that no face passes on: inner crates lend it each other;
- a law, a function that gives nothing back and changes nothing: its contract is all that it says;
- what operators and `format!` call: equality, order, hashes and prints.

A call is asked where its name stands as a call, `.name(`, `Owner::name` or `name(`, in a crate that answers
questions, in a crate of tests, in a `#[test]` function, or in one of the crates of RUN, which the stored runs run. A call
`.name(` counts for a type that its file names, and for the only type with such a function where the file imports
something of that type's crate. The functions of a trait that such a text has an impl of are asked, since the library
calls that. Comments, texts, items for proofs and clauses don't count.

A call that nothing asks fails, by its crate, file and line. UNASKED has those that need no question, each with
the reason; one of them that is asked or is no call fails too. floors.py has the least counts. The last line is
`N passed, M failed`.
"""

import os
import re
import sys
from typing import NamedTuple, Optional

import floors
from crates import TOP, Crates

FACES = ("pep440_rs", "pep508_rs", "reqtable", "reqs", "reqs_io")
# Of version_ranges the sets are public; their boundaries are lent to the crates of ranges and trees.
SETS = ("Ranges", "RangeValue", "Iter")
# Run by tests/cli.sh on the stored runs.
RUN = ("reqs_io_faults", "reqs_json", "reqs_lists", "reqs_assuming", "reqs_pieces", "reqs_rows", "reqs_answers", "reqs_messages", "reqs_command", "reqs_cli")
# Calls that need no question, and why.
LENT = "lent to the crates of trees, and public only since its type is"
UNASKED = {
    "MarkerTree::place": LENT,
    "MarkerTree::is_negated": LENT,
    "MarkerTree::turned": LENT,
    "MarkerTree::cmp_places": LENT,
}

# What is no code: comments, texts, characters, items for proofs alone and clauses.
COMMENT = re.compile(r"//[^\n]*|/\*.*?\*/", re.S)
TEXT = re.compile(r'b?r(#*)".*?"\1|b?"(?:\\.|[^"\\])*"', re.S)
CHARACTER = re.compile(r"b?'(?:\\(?:u\{[0-9a-fA-F_]+\}|x..|.)|[^\\'])'")
GHOST = re.compile(r"(?:pub(?:\(\w+\))? )?\bghost\b")
CLAUSE = re.compile(r"\b(?:requires|ensures|decreases|invariant)\b(?:\s+\w+)?\s*(?=\{)")
WORD = re.compile(r"\w+")
USE = re.compile(r"^[ ]*(?:pub )?use ([^;]+);", re.M)
GENERIC = r"::<[^(){};]*>"


def end_of_brackets(text, at):
    """The place behind the bracket that closes the one at a place."""
    depth = 0
    for it in re.compile(r"[{}]").finditer(text, at):
        depth += 1 if it.group() == "{" else -1
        if depth == 0:
            return it.end()
    return len(text)


def end_of_ghost(text, at):
    """The place behind an item for proofs: behind `;` or a field's `,`, or at the bracket around it."""
    while at < len(text):
        if text[at] == "{":
            at = end_of_brackets(text, at)
        elif text[at] in ";,":
            return at + 1
        elif text[at] == "}":
            return at
        else:
            at += 1
    return at


def code(text):
    """The text with blanks in place of all that is no code."""
    parts, at = [], 0

    def blank(end):
        parts.append(re.sub(r"[^\n]", " ", text[at:end]))
        return end

    while at < len(text):
        skipped = COMMENT.match(text, at) or TEXT.match(text, at) or CHARACTER.match(text, at)
        ghost, clause, word = GHOST.match(text, at), CLAUSE.match(text, at), WORD.match(text, at)
        if skipped:
            at = blank(skipped.end())
        elif ghost:
            at = blank(end_of_ghost(text, ghost.end()))
        elif clause:
            at = blank(end_of_brackets(text, clause.end()))
        else:
            end = word.end() if word else at + 1
            parts.append(text[at:end])
            at = end
    return "".join(parts)


class Call(NamedTuple):
    """A function: its crate, file and line, the type or trait that has it if any, and its signature."""

    crate: str
    path: str
    line: int
    owner: Optional[str]
    name: str
    signature: str
    of_trait: bool
    is_public: bool

    def takes_self(self):
        return re.search(r"[(]\s*(?:&\s*(?:'\w+\s+)?)?(?:mut\s+)?self\b", self.signature) is not None

    def is_law(self):
        return "->" not in self.signature and "&mut" not in self.signature

    def label(self):
        return f"{self.owner}::{self.name}" if self.owner else self.name


FUNCTION = re.compile(r"(?P<public>pub )?(?:const |unsafe |final )*fn (?P<name>\w+)(?P<signature>[^{;]*)")
HOLDER = re.compile(r"(?:(?P<shown>pub )?trait (?P<trait>\w+)|impl\b(?P<impl>[^{;]*))(?=[^{;]*\{)")
NAMED = re.compile(r"^pub (?:struct|enum|trait|type|const) (\w+)", re.M)


def owner_of(head):
    """The type of an `impl` of its own, and none of a trait's impl."""
    head = head.split(" where")[0].strip()
    while head.startswith("<"):
        depth, at = 0, 0
        for at, it in enumerate(head):
            depth += {"<": 1, ">": -1 if head[at - 1] != "-" else 0}.get(it, 0)
            if depth == 0:
                break
        head = head[at + 1:].strip()
    if re.search(r"\bfor\b", head):
        return None
    return re.match(r"\w+", head.rsplit("::", 1)[-1]).group()


def calls_in(crate, path, text):
    """The functions of a file: those of its module, of types and of traits."""
    def found(begin, end, owner, of_trait, shown):
        at = begin
        while at < end:
            holder = HOLDER.search(text, at, end) if owner is None else None
            function = FUNCTION.search(text, at, end)
            if holder and not (function and function.start() < holder.start()):
                inside = text.index("{", holder.end())
                at = end_of_brackets(text, inside)
                name = holder["trait"] or owner_of(holder["impl"])
                if name:
                    yield from found(inside + 1, at - 1, name, bool(holder["trait"]), bool(holder["shown"]))
            elif function:
                line = text.count("\n", 0, function.start()) + 1
                is_public = shown if of_trait else bool(function["public"])
                name, signature = function["name"], function["signature"]
                yield Call(crate, path, line, owner, name, signature, of_trait, is_public)
                at = function.end()
                if at < end and text[at] == "{":
                    at = end_of_brackets(text, at)
            else:
                return

    yield from found(0, len(text), None, False, False)


def use_paths(text):
    """The paths that a text imports, each with whether it is passed on: of `pub use a::b` (True, ["a", "b"])."""
    def spread(tree):
        front, bracket, rest = tree.partition("{")
        if not bracket:
            return [tree.split(" as ")[0].strip().split("::")]
        stem, inner, depth, piece = front.strip().rstrip(":").split("::"), [], 0, ""
        for it in rest[: rest.rindex("}")]:
            depth += {"{": 1, "}": -1}.get(it, 0)
            if it == "," and depth == 0:
                inner.append(piece)
                piece = ""
            else:
                piece += it
        return [stem + path for it in [*inner, piece] if it.strip() for path in spread(it)]

    for it in re.finditer(r"^\s*(pub )?use ([^;]+);", text, re.M):
        for path in spread(it[2]):
            yield bool(it[1]), path


class Library:
    """A crate's texts without what is no code, its functions, and the names that others may use."""

    def __init__(self, crate):
        self.name, self.files, self.calls = crate.name, {}, []
        for path in crate.text_files():
            if path.endswith(".rt"):
                with open(path, encoding="utf-8") as file:
                    self.files[path] = code(file.read())
        for path, text in self.files.items():
            self.calls += calls_in(self.name, path, text)
        self.types = {it for text in self.files.values() for it in NAMED.findall(text)}
        self.root = next((text for path, text in self.files.items() if path.endswith("src/lib.rt")), "")

    def public(self):
        return [it for it in self.calls if it.is_public and os.path.basename(it.path) != "laws.rt"]


class Surface:
    """The public calls."""

    def __init__(self, libraries):
        self.libraries, self.passed_on, found = libraries, set(), {}
        for name in FACES:
            self.pass_on_all(name)
        for name in SETS:
            self.pass_on("version_ranges", name)
        for text in (text for it in ("reqs_io_faults", "reqs_lists", "reqs_answers") for text in libraries[it].files.values()):
            for _, path in use_paths(text):
                if path[0] in libraries:
                    self.pass_on(path[0], path[1])
        for crate, name in sorted(self.passed_on):
            found.update({it: None for it in self.behind(crate, name)})
        self.calls = [it for it in found if not list(self.inner_types(it))]

    def pass_on_all(self, crate):
        """Passes on what a crate's root does."""
        root = self.libraries[crate].root
        for is_public, path in use_paths(root):
            if is_public and len(path) == 1:
                self.pass_on_all(path[0])
            elif is_public:
                self.pass_on(path[0] if path[0] in self.libraries else crate, path[-1])
        for name in re.findall(r"^pub (?:fn|struct|enum|trait) (\w+)", root, re.M):
            self.pass_on(crate, name)

    def pass_on(self, crate, name):
        """Passes on a name of a crate, by the crate that has what it means."""
        for is_public, path in use_paths(self.libraries[crate].root):
            if is_public and path[-1] == name and path[0] in self.libraries:
                return self.pass_on(path[0], name)
        self.passed_on.add((crate, name))

    def behind(self, crate, name):
        """The calls behind a name: a function, those of a type or trait, or the functions of a module."""
        library = self.libraries[crate]
        is_module = re.search(rf"^pub mod {name};", library.root, re.M)
        for it in library.calls:
            in_module = is_module and it.owner is None and it.path.endswith(f"/{name}.rt")
            is_named = in_module or name == (it.owner or it.name)
            if is_named and it.is_public and not it.is_law():
                yield it

    def inner_types(self, call):
        """The types in a call's signature that the crates have and no face passes on."""
        imported = {path[-1]: path[0] for _, path in use_paths(self.libraries[call.crate].files[call.path])}
        for name in re.findall(r"\b[A-Z]\w*", call.signature):
            crate = imported.get(name, call.crate)
            crate = crate if crate in self.libraries else call.crate
            for is_public, path in use_paths(self.libraries[crate].root):
                if is_public and path[-1] == name and path[0] in self.libraries:
                    crate = path[0]
            if name in self.libraries[crate].types and (crate, name) not in self.passed_on:
                yield name


class Asking:
    """A text that asks: its words, the calls in it and the traits that it has for types of its own."""

    def __init__(self, text):
        self.words = set(WORD.findall(text))
        self.methods = set(re.findall(rf"\.\s*(\w+)(?:{GENERIC})?\(", text))
        self.paths = set(re.findall(rf"\b(\w+)(?:{GENERIC})?(?:<[^<>(){{}};]*>)?::(\w+)\b(?!\s*::\s*\w)", text))
        self.paths |= set(re.findall(r"<[^<>()]*\bas (\w+)(?:<[^<>]*>)?>::(\w+)", text))
        self.plain = set(re.findall(rf"(?<![.\w])(?<!\bfn )(\w+)(?:{GENERIC})?\(", text))
        self.meets = set(re.findall(r"^\s*impl\b[^{;]*?\b(\w+)(?:<[^{;]*>)? for ", text, re.M))

    def asks(self, call, is_only):
        """Whether a call stands in it. `is_only` says that no other type has a function of that name."""
        if call.owner is None:
            module = os.path.basename(call.path)[: -len(".rt")]
            paths = {(module, call.name), (call.crate, call.name)}
            return call.name in self.plain or not self.paths.isdisjoint(paths)
        if (call.owner, call.name) in self.paths or call.of_trait and call.owner in self.meets:
            return True
        if call.of_trait and call.owner in self.words and any(name == call.name for _, name in self.paths):
            return True
        is_told = call.owner in self.words or is_only and call.crate in self.words
        return is_told and call.takes_self() and call.name in self.methods


class Asked:
    """The calls that stand in what answers questions, in tests and in what the stored runs run."""

    def __init__(self, crates, libraries):
        self.texts, self.owners = [], {}
        for name, library in libraries.items():
            is_whole = name in (*RUN, *floors.refused.VECTORS) or crates[name].is_program() or name.endswith("_tests")
            for text in library.files.values():
                asking = text if is_whole else "\n".join(tests_in(text))
                self.texts += [Asking(USE.sub("use \\1;", asking))] if asking else []
            for it in library.calls:
                self.owners.setdefault(it.name, set()).add(it.owner)

    def asks(self, call):
        return any(it.asks(call, len(self.owners[call.name]) == 1) for it in self.texts)


def tests_in(text):
    """The `#[test]` functions of a text."""
    for it in re.finditer(r"#\[test\]", text):
        yield text[it.end(): end_of_brackets(text, text.find("{", it.end()))]


def main():
    crates = Crates()
    libraries = {name: Library(crate) for name, crate in crates.items()}
    calls, asked = Surface(libraries).calls, Asked(crates, libraries)
    passed, faults, left = 0, [], dict(UNASKED)
    for call in calls:
        is_asked = asked.asks(call)
        reason = left.pop(call.label(), None)
        if is_asked and reason:
            faults.append(f"{call.label()} is asked, and stands in UNASKED")
        elif is_asked or reason:
            passed += 1
        else:
            path = os.path.relpath(call.path, TOP)
            place = f"{call.crate}, {path}:{call.line}"
            faults.append(f"no question, test or run makes the call {call.label()} ({place})")
    faults += [f"{label} stands in UNASKED and is no public call" for label in left]
    if not calls:
        faults.append("no public call was found")
    counted, below = floors.judged()
    passed, faults = passed + counted, faults + below
    for fault in faults:
        print(f"FAILED: {fault}")
    print(f"{passed} passed, {len(faults)} failed")
    return 1 if faults else 0


if __name__ == "__main__":
    sys.exit(main())
