"""The public contracts of a crate's sources, each part of them by name.

These are held: of each public function its signature and each clause; of each public type what it is made of, or where
it has an `impl Model` the members of that; of each public trait its members; of each impl of a public trait for a public
type its head, members and clauses; each public constant, and each name that is passed on. Of a type that is not public its
model is held, by which a public type may be seen, and it itself where a definition takes it from the sources (`declared`).
Private functions, bodies and tests are not; but of a crate of tests each function with an `ensures` is, which shows what callers
can prove.

A part's text ends with the imports of the names in it: of a clause the `ghost use` lines, of other code the `use` lines.
"""

import os
import re

from statements import imported, imports_of, in_one_line, stated

# What is no code, within which brackets don't count: comments, texts, characters.
APART = re.compile(r'//[^\n]*|/\*.*?\*/|b?r(#*)".*?"\1|b?"(?:\\.|[^"\\])*"|b?\'(?:\\(?:u\{[0-9a-fA-F_]+\}|x..|.)|[^\\\'])\'', re.S)
CODE_WORD = re.compile(r'"(?:\\.|[^"\\])*"|\'(?:\\.|[^\\\'])\'|\w+|[^\w\s]')
BRACKET = re.compile(r"[{}()\[\];]")
HEAD = re.compile(r"(?P<shown>pub(?P<within>\s*\([^)]*\))?\s+)?(?P<ghost>ghost\s+)?"
                  r"(?:(?:default|final|unsafe|async|extern|const(?=\s+(?:unsafe\s+|extern\s+)*fn))\s+)*(?P<kind>\w+)\s*(?P<name>\w*)")
# What stands before the bracket of a clause.
CLAUSE = re.compile(r"\b(?:(?P<kind>requires|ensures|decreases|reads)\*?(?:\s+(?P<name>\w+))?|ghost\s+(?P<ghost>\w+)\s*:)\s*$")
GHOST_USE = re.compile(r"ghost\s+use\s+(?P<path>[^{}\s;]+?)(?:\.\{(?P<names>[^{}]*)\}|\s+as\s+(?P<alias>\S+))?\s*;")
GHOST_FIELD = re.compile(r"(?:pub\s*(?:\([^)]*\)\s*)?)?\bghost\s+(?P<name>\w+)\s*:\s*(?=\{)")
DECLARED = re.compile(r"use Rattle\.(\w+)\.specs\.declared\.(?:\w+\.)*?([A-Z]\w*)\b")
TYPES = ("struct", "enum", "union", "trait")


def apart(text):
    """The text with blanks for comments, and the text with blanks for texts and characters too; places stay the same."""
    def blank(it):
        return re.sub(r"[^\n]", " ", it[0])

    return APART.sub(lambda it: blank(it) if it[0][0] == "/" else it[0], text), APART.sub(blank, text)


def code_line(text):
    """Code in one line, with a blank between its words and no comma before a closing bracket."""
    words = CODE_WORD.findall(text)
    return " ".join(it for it, after in zip(words, [*words[1:], ")"]) if it != "," or after not in (")", "]", "}", ">"))


def after_brackets(bare, at):
    """The place after the bracket that closes the one at a place."""
    depth = 0
    for it in BRACKET.finditer(bare, at):
        depth += {"{": 1, "(": 1, "[": 1, ";": 0}.get(it[0], -1)
        if depth == 0:
            return it.end()
    return len(bare)


def rust_imports(tree, front=""):
    """The names that the tree of a `use` brings in, each with its path."""
    stem, bracket, rest = tree.strip().partition("{")
    if not bracket:
        path, _, alias = (front + stem).partition(" as ")
        return [(alias.strip() or path.strip().rpartition("::")[2], code_line(path).replace(" ", ""))]
    found, depth, begin, inner = [], 0, 0, rest[: rest.rindex("}")]
    for at, it in enumerate(inner + ","):
        depth += {"{": 1, "}": -1}.get(it, 0)
        if it == "," and depth == 0:
            found += rust_imports(inner[begin:at], front + stem) if inner[begin:at].strip() else []
            begin = at + 1
    return found


def impl_parts(head):
    """The trait, or None, and the type of an impl's head."""
    head = re.split(r"\bwhere\b", head)[0].replace("->", "  ").strip()
    if head.startswith("<"):
        depth = 0
        for at, it in enumerate(head):
            depth += {"<": 1, ">": -1}.get(it, 0)
            if depth == 0:
                break
        head = head[at + 1 :]
    *of, to = re.split(r"\bfor\b(?!\s*<)", head)
    return (of[0].strip() if of else None), to.strip()


def label(text):
    return re.sub(r"\W+", "_", text).strip("_")


def type_name(text):
    """The name of a type without its path, reference and arguments."""
    return re.match(r"(?:&\s*(?:'\w+\s+)?(?:mut\s+)?)?(?:\w+::)*(\w*)", text)[1] or label(text)


class Scope:
    """The imports that are seen at a place: those of clauses and those of code."""

    def __init__(self, around=None):
        self.clauses = [*around.clauses] if around else []
        self.code = [*around.code] if around else []


class Source:
    """A file of a crate's sources, and what of it is held."""

    def __init__(self, crate, path, text, types):
        self.path, self.types, self.found, self.holds_callers = path, types, [], False
        self.plain, self.bare = apart(text)
        folders = os.path.splitext(os.path.relpath(path, os.path.join(crate.folder, "src")))[0].split(os.sep)
        modules = folders[: -1 if folders[-1] in ("lib", "main", "mod") else len(folders)]
        self.module = "::".join([crate.name, *modules])

    def items(self, at, end):
        """The items from a place to another: the match of the head, the text of the attributes and the item's end."""
        while True:
            attributes = []
            while True:
                at = re.compile(r"\s*").match(self.bare, at, end).end()
                attribute = re.compile(r"#!?\[").match(self.bare, at, end)
                if not attribute:
                    break
                at = after_brackets(self.bare, attribute.end() - 1)
                attributes.append(self.plain[attribute.start() : at])
            if at >= end:
                return
            head = HEAD.match(self.bare, at, end)
            if not head:
                raise ValueError(f"{self.path}:{self.line(at)}: this item is of no kind that is known")
            after = self.end_of_item(head, end)
            if self.holds_callers or not any(re.search(r"\btest\b", it) for it in attributes):
                yield head, attributes, after
            at = after

    def end_of_item(self, head, end):
        """The place after an item: after its `;`, or after the brackets that hold its body."""
        ends_by_brackets = not head["ghost"] and head["kind"] not in ("use", "const", "static", "type")
        at = head.end("kind")
        while True:
            it = BRACKET.search(self.bare, at, end)
            if not it:
                return end
            if it[0] == ";":
                return it.end()
            at = after_brackets(self.bare, it.start())
            if it[0] == "{" and ends_by_brackets and not self.clause_at(it.start()):
                return at

    def clause_at(self, at):
        """The match of what makes the bracket at a place a clause's, or None."""
        return CLAUSE.search(self.bare, max(0, at - 120), at)

    def is_held_caller(self, head, after):
        """Whether this is an item of a crate of tests, and a function that says what it ensures."""
        brackets = BRACKET.finditer(self.bare, head.end(), after) if self.holds_callers and head["kind"] == "fn" else ()
        clauses = [self.clause_at(it.start()) for it in brackets if it[0] == "{"]
        return any(it and it["kind"] == "ensures" for it in clauses)

    def line(self, at):
        return self.plain.count("\n", 0, at) + 1

    def hold(self, name, at, text, imports):
        self.found.append(stated(f"{self.module}::{name}", self.path, self.line(at), text, imports))

    def hold_code(self, name, at, text, scope, before=()):
        said = "\n".join([*before, code_line(text)])
        self.hold(name, at, said, imports_of(said, scope.code))

    def hold_clause(self, name, at, text, scope):
        said = in_one_line(text)
        self.hold(name, at, said, imports_of(said, scope.clauses))

    def imports(self, at, end, scope):
        """Takes the imports of a level into its scope."""
        for head, _, after in self.items(at, end):
            text = self.plain[head.start() : after]
            if head["kind"] == "use" and head["ghost"]:
                it = GHOST_USE.search(text)
                scope.clauses += imported(it["path"], it["names"], it["alias"])
            elif head["kind"] == "use":
                scope.code += rust_imports(text[head.end("kind") - head.start() : -1])

    def read(self, at=0, end=None, scope=None, front=""):
        """Holds what a module has."""
        end, scope = len(self.bare) if end is None else end, Scope(scope)
        self.imports(at, end, scope)
        for head, attributes, after in self.items(at, end):
            is_public, name = bool(head["shown"]) and not head["within"], front + head["name"]
            if head["kind"] == "mod":
                self.read_module(head, after, scope, name, is_public)
            elif head["kind"] == "impl":
                self.read_impl(head, after, scope, front)
            elif head["kind"] == "use":
                self.read_use(head, after, front, is_public)
            elif head["kind"] == "fn" and (is_public or self.is_held_caller(head, after)):
                self.read_function(head, after, scope, name)
            elif head["kind"] in TYPES and (is_public or self.types.is_declared(head["name"])):
                self.read_type(head, attributes, after, scope, name)
            elif head["kind"] in ("const", "static", "type") and is_public:
                self.hold_code(name, head.start(), self.plain[head.start() : after], scope)
        return self.found

    def read_module(self, head, after, scope, name, is_public):
        if is_public:
            self.hold_code(name, head.start(), f"pub mod {head['name']}", scope)
        if self.bare[after - 1] == "}":
            self.read(self.bare.index("{", head.start()) + 1, after - 1, scope, f"{name}::")

    def read_use(self, head, after, front, is_public):
        if is_public and not head["ghost"]:
            for name, path in rust_imports(self.plain[head.end("kind") : after - 1]):
                self.hold(f"{front}{name}", head.start(), f"pub use {path}", [])

    def read_function(self, head, after, scope, name, before=()):
        """Holds a function's signature, with what stands `before` that, and its clauses; with None the clauses alone."""
        signature, clauses, at = None, [], head.end()
        while True:
            it = BRACKET.search(self.bare, at, after)
            clause = self.clause_at(it.start()) if it and it[0] == "{" else None
            if signature is None and (clause or not it or it[0] in "{;"):
                signature = clause.start() if clause else it.start() if it else after
            if not it or it[0] == ";" or it[0] == "{" and not clause:
                break
            at = after_brackets(self.bare, it.start())
            if clause:
                clauses.append((clause, self.plain[clause.start() : at]))
        if before is not None:
            self.hold_code(name, head.start(), self.plain[head.start() : signature], scope, before)
        for clause, text in clauses:
            kind = ".".join(filter(None, (clause["kind"] or "ghost", clause["name"] or clause["ghost"])))
            self.hold_clause(f"{name}.{kind}", clause.start(), text, scope)

    def read_type(self, head, attributes, after, scope, name):
        begin = self.bare.find("{", head.start(), after)
        if head["kind"] == "trait":
            self.hold_code(name, head.start(), self.plain[head.start() : begin], scope)
            self.read_members(begin + 1, after - 1, scope, name)
            return
        derived = [code_line(it) for it in attributes if it.startswith("#[derive")]
        pieces, at = [], head.start()
        for it in GHOST_FIELD.finditer(self.bare, at, after):
            end = after_brackets(self.bare, it.end())
            self.hold_clause(f"{name}.{it['name']}", it.start(), self.plain[it.start() : end], scope)
            pieces.append(self.plain[at : it.start()])
            at = end
        pieces.append(self.plain[at:after])
        is_seen_by_model = head["name"] in self.types.modelled and begin >= 0
        text = self.plain[head.start() : begin] if is_seen_by_model else " ".join(pieces)
        self.hold_code(name, head.start(), text, scope, derived)

    def read_impl(self, head, after, scope, front):
        begin = self.bare.index("{", head.start())
        of, to = impl_parts(self.bare[head.end("kind") : begin])
        is_public = self.types.is_public(type_name(to)) and self.types.is_public(type_name(of or to))
        is_whole = of and (of == "Model" or is_public)
        if of and not is_whole and not self.holds_callers:
            return
        name, text = front + type_name(to), self.plain[head.start() : begin]
        if of:
            name = f"{name}:{label(of)}"
        if is_whole:
            self.hold_code(name, head.start(), text, scope)
        self.read_members(begin + 1, after - 1, scope, name, None if is_whole else [code_line(text)], not is_whole)

    def read_members(self, at, end, scope, owner, before=(), is_own=False):
        """Holds the members of a trait or an impl: of a type's own impl the public ones alone."""
        scope = Scope(scope)
        self.imports(at, end, scope)
        for head, _, after in self.items(at, end):
            is_shown = not is_own or head["shown"] and not head["within"] or self.is_held_caller(head, after)
            if head["ghost"] and head["kind"] != "use":
                self.hold_clause(f"{owner}.{head['kind']}", head.start(), self.plain[head.start() : after], scope)
            elif head["kind"] == "fn" and is_shown:
                self.read_function(head, after, scope, f"{owner}::{head['name']}", before)
            elif head["kind"] in ("type", "const") and is_shown:
                self.hold_code(f"{owner}.{head['name']}", head.start(), self.plain[head.start() : after], scope)


class Types:
    """The types and traits of a crate: those that are not public, those with a model and those that definitions take."""

    def __init__(self, sources, taken):
        self.public, self.private, self.modelled, self.taken = set(), set(), set(), taken
        for it in sources:
            self.look(it, 0, len(it.bare))

    def look(self, source, at, end):
        for head, _, after in source.items(at, end):
            if head["kind"] in TYPES:
                (self.public if head["shown"] and not head["within"] else self.private).add(head["name"])
            elif head["kind"] == "mod" and source.bare[after - 1] == "}":
                self.look(source, source.bare.index("{", head.start()) + 1, after - 1)
            elif head["kind"] == "impl":
                of, to = impl_parts(source.bare[head.end("kind") : source.bare.index("{", head.start())])
                self.modelled |= {type_name(to)} if of == "Model" else set()

    def is_public(self, name):
        return name in self.public or name not in self.private

    def is_declared(self, name):
        return name in self.taken


def declared_in_specs(crates):
    """The types by crate that definitions take from the sources."""
    taken = {name: set() for name in crates}
    for crate in crates.values():
        for path in crate.text_files():
            if path.startswith(os.path.join(crate.folder, "specs")) and path.endswith(".antt"):
                with open(path, encoding="utf-8") as file:
                    for name, of in DECLARED.findall(file.read()):
                        taken.setdefault(name, set()).add(of)
    return taken


def contracts(crate, taken, holds_callers=False):
    """The public contracts of a crate, part by part; `taken` has the types that definitions take from its sources. Of a crate of
    tests those of its proved callers stand beside them."""
    sources = []
    for path in crate.text_files():
        if path.startswith(os.path.join(crate.folder, "src")) and path.endswith(".rt"):
            with open(path, encoding="utf-8") as file:
                sources.append(Source(crate, path, file.read(), None))
    types = Types(sources, taken)
    for it in sources:
        it.types, it.holds_callers = types, holds_callers
        yield from it.read()
