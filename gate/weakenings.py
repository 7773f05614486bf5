"""Mutants of the definitions of specs/: each a definition that says a little less, or something a little other.

`mutants_of` reads a definition by its layout. Of a record it drops each field; of what a field or an equation says it
drops each member of a conjunction and of a disjunction and each premise; it exchanges `&&` and `||`, `<` and `≤`, `≡`
and `≢`, `true` and `false`, and puts `None` for `Some x`; of a function by cases it gives each case its neighbour's
answer; and it turns two parameters of one type. Proofs that stand in specs/ have none.
"""

import re
from typing import NamedTuple

from statements import TYPE, declared_in, in_one_line

WORD = re.compile(r'"(?:\\.|[^"\\])*"|[(){},;]|[^\s(){},;"]+')
OPEN, CLOSE = {"(": ")", "{": "}"}, (")", "}")
# What ends a chain of operators, beside the dot behind what `λ` binds.
ENDS = ("=", ":", ";", ",", "if", "then", "else", "let", "in", "do", "←", "λ", ">>=", "|")
CHAINS = {"×": "conjunct", "&&": "conjunct", "⊎": "disjunct", "||": "disjunct"}
RELATIONS = ("≡", "≢", "<", "≤")
EXCHANGED = {"&&": "||", "||": "&&", "<": "≤", "≤": "<", "≡": "≢", "≢": "≡", "true": "false", "false": "true"}
OPERATORS = ("&&", "||", "<", "≤", "≡", "≢")
DEFINES = re.compile(r"^(?:pub )?(?:abbrev|unfoldable)\b")
FIELD = re.compile(r"(?:pub )?(\S+) :(?=\s|$)")
ENDINGS = {1: "st", 2: "nd", 3: "rd"}


class Mutant(NamedTuple):
    """A mutant: its name, and the texts that it puts in place of others in its file, each by where that begins and ends."""

    name: str
    pieces: tuple

    def over(self, text):
        for begin, end, new in sorted(self.pieces, reverse=True):
            text = text[:begin] + new + text[end:]
        return text

    def told(self, text):
        """What is put in place of what, in one line."""
        return "; ".join(f"{in_one_line(text[begin:end])[:90]} => {in_one_line(new)[:60]}" for begin, end, new in self.pieces)


class Token(NamedTuple):
    word: str
    begin: int
    end: int


class Group(NamedTuple):
    """What stands in brackets, from the opening to the closing one."""

    word: str
    begin: int
    end: int
    inside: list

    def binds(self):
        """Whether it is the binder of a product, of a sum or of a function."""
        return any(it.word == ":" for it in self.inside)


def nth(number):
    return f"{number}{'th' if number % 100 in (11, 12, 13) else ENDINGS.get(number % 10, 'th')}"


def atoms_of(tokens):
    """Tokens with what stands in brackets as one of them."""
    stack, opened = [[]], []
    for it in tokens:
        if it.word in OPEN:
            opened.append(it)
            stack.append([])
        elif it.word in CLOSE and opened:
            inside, first = stack.pop(), opened.pop()
            stack[-1].append(Group(first.word, first.begin, it.end, inside))
        else:
            stack[-1].append(it)
    while opened:
        inside = stack.pop()
        stack[-1] += [opened.pop(), *inside]
    return stack[0]


def split_at(atoms, words):
    """The parts of atoms between those of these words."""
    parts = [[]]
    for it in atoms:
        if it.word in words:
            parts.append([])
        else:
            parts[-1].append(it)
    return parts


def runs_of(atoms):
    """The parts of atoms within which operators make one chain."""
    parts, binds = [[]], False
    for it in atoms:
        is_dot = binds and (it.word == "." or it.word.endswith(".") and len(it.word) > 1)
        if is_dot or it.word in ENDS:
            binds = it.word == "λ" or binds and not is_dot
            parts.append([])
        else:
            parts[-1].append(it)
    return [it for it in parts if it]


def all_runs(atoms):
    """The runs of atoms and of all that stands in brackets there, but for binders."""
    for run in runs_of(atoms):
        yield run
    for it in atoms:
        if isinstance(it, Group) and not it.binds():
            yield from all_runs(it.inside)


def flat(atoms):
    """The tokens of atoms, those in brackets too."""
    for it in atoms:
        yield from flat(it.inside) if isinstance(it, Group) else [it]


def is_binder(part):
    return all(isinstance(it, Group) and it.binds() for it in part)


class Region:
    """What a field or an equation says: its atoms, and what its mutants' names end with."""

    def __init__(self, atoms, where):
        self.atoms, self.where, self.counts = atoms, where, {}

    def named(self, verb, what):
        number = self.counts[what] = self.counts.get(what, 0) + 1
        return f"{verb} {nth(number)} {what}{self.where}"

    def mutants(self, has):
        for run in sorted(all_runs(self.atoms), key=lambda it: it[0].begin):
            yield from self.premises(run)
            for part in split_at(run, ("→",)):
                yield from self.members(part)
        yield from self.exchanged(has)

    def premises(self, run):
        """Of a chain of premises each dropped; what a name is bound for is none."""
        parts = split_at(run, ("→",))
        if len(parts) < 2 or not all(parts) or parts[-1][0].word == "Type":
            return
        for part, after in zip(parts, parts[1:]):
            if not is_binder(part):
                yield Mutant(self.named("drop", "premise"), ((part[0].begin, after[0].begin, ""),))

    def members(self, part):
        """Of a conjunction, or a disjunction, each member dropped."""
        chains = [it for it in CHAINS if any(atom.word == it for atom in part)]
        if len(chains) != 1 or chains[0] in ("&&", "||") and any(it.word in RELATIONS for it in part):
            return
        operands = split_at(part, chains)
        if not all(operands):
            return
        for at, it in enumerate(operands):
            if chains == ["×"] and is_binder(it):
                continue
            name = self.named("drop", CHAINS[chains[0]])
            if at + 1 < len(operands):
                yield Mutant(name, ((it[0].begin, operands[at + 1][0].begin, ""),))
            elif at > 0 and not is_binder(operands[at - 1]):
                yield Mutant(name, ((operands[at - 1][-1].end, it[-1].end, ""),))

    def exchanged(self, has):
        """Each word exchanged for its opposite where that is known in the file."""
        tokens = [*flat(self.atoms)]
        for it in tokens:
            new = EXCHANGED.get(it.word)
            if new and has(new):
                yield Mutant(self.named("exchange", it.word), ((it.begin, it.end, new),))
        for before, some, after in self.somes(self.atoms):
            name = self.named("exchange", "Some")
            is_alone = before is None and after is None
            if has("None"):
                yield Mutant(name, ((some[0].begin, some[1].end, "None" if is_alone else "None "),))

    def somes(self, atoms):
        """Each `Some` with what it is applied to, and what stands before and after them."""
        for at, it in enumerate(atoms):
            if it.word == "Some" and at + 1 < len(atoms) and atoms[at + 1].word not in (*ENDS, *RELATIONS, *CHAINS, "→", "++", "∷"):
                yield (atoms[at - 1] if at else None), (it, atoms[at + 1]), (atoms[at + 2] if at + 2 < len(atoms) else None)
            if isinstance(it, Group):
                yield from self.somes(it.inside)


class Equation:
    """An equation: the atoms of its left and of its right side."""

    def __init__(self, atoms):
        at = next(at for at, it in enumerate(atoms) if it.word == "=")
        self.left, self.right = atoms[:at], atoms[at + 1 :]

    def text(self, whole):
        return whole[self.right[0].begin : self.right[-1].end]

    def names(self):
        """The names that its left side binds, or may bind."""
        return {it.word for it in flat(self.left[1:]) if it.word[0].islower() and "." not in it.word}

    def used(self):
        return {it.word.split(".")[0] for it in flat(self.right)}


class Definition:
    """A definition in the text of its file."""

    def __init__(self, declared, text, imports, own):
        self.declared, self.text, self.imports = declared, text, imports
        self.known = {*own, *(name for name, _ in imports)}
        self.starts = [0]
        for line in text.split("\n"):
            self.starts.append(self.starts[-1] + len(line) + 1)
        head = declared.chunks[0][0][1].strip()
        self.is_record = bool(TYPE.match(head)) and " record " in f" {head}".replace(" pub ", " ")
        self.defines = self.is_record or bool(DEFINES.match(head)) or bool(TYPE.match(head))
        self.chunks = [self.atoms(it) for it in declared.chunks]

    def atoms(self, lines):
        return atoms_of(Token(it[0], self.starts[number - 1] + it.start(), self.starts[number - 1] + it.end())
                        for number, line in lines for it in WORD.finditer(line))

    def has(self, word):
        return {word, f"◌{word}◌"} & self.known or word in ("true", "false") and {"true", "false"} <= self.known

    def stands_at(self, number):
        return any(number == it for lines in self.declared.chunks for it, _ in lines)

    def mutants(self):
        if not self.defines:
            return
        seen = set()
        for it in self.of_record() if self.is_record else self.of_equations():
            made = it.over(self.text)
            if made not in seen and made != self.text:
                seen.add(made)
                yield it

    def fields(self):
        """The fields of a record: the name, where it begins, where what comes next begins, and the atoms of its type."""
        lines = self.declared.chunks[0]
        at = next(at for at, it in enumerate(lines) if re.search(r"\bwhere$", it[1].rstrip())) + 1
        if at == len(lines):
            return []
        indent = len(lines[at][1]) - len(lines[at][1].lstrip())
        firsts = [k for k in range(at, len(lines)) if len(lines[k][1]) - len(lines[k][1].lstrip()) == indent]
        found = []
        for first, after in zip(firsts, [*firsts[1:], len(lines)]):
            name = FIELD.match(lines[first][1].strip())[1]
            end = self.starts[lines[after - 1][0]] - 1
            atoms = self.atoms(lines[first:after])
            colon = next(k for k, it in enumerate(atoms) if it.word == ":")
            found.append((name, self.starts[lines[first][0] - 1], end, atoms[colon + 1 :]))
        return found

    def of_record(self):
        fields = self.fields()
        for at, (name, begin, end, _) in enumerate(fields):
            later = {it.word.split(".")[0] for *_, atoms in fields[at + 1 :] for it in flat(atoms)}
            if len(fields) > 1 and name not in later:
                yield Mutant(f"drop field {name}", ((begin, end, ""),))
        for name, _, _, atoms in fields:
            yield from Region(atoms, f" of {name}").mutants(self.has)
        yield from self.turned(self.parameters_of_record())

    def parameters_of_record(self):
        """The parameters of a record in round brackets: the type and the name of each."""
        atoms = self.chunks[0]
        for it in atoms[: next(at for at, it in enumerate(atoms) if it.word == ":")]:
            if isinstance(it, Group) and it.word == "(" and it.binds():
                colon = next(at for at, of in enumerate(it.inside) if of.word == ":")
                of = in_one_line(self.text[it.inside[colon + 1].begin : it.inside[-1].end])
                yield from ((of, [name]) for name in it.inside[:colon])

    def turned(self, parameters):
        """Each two parameters of one type that are next to each other among those of it, turned."""
        parameters = [*parameters]
        for at, (of, firsts) in enumerate(parameters):
            other = next((k for k in range(at + 1, len(parameters)) if parameters[k][0] == of), None)
            if other is None or of.startswith("Type"):
                continue
            pieces = []
            for a, b in zip(firsts, parameters[other][1]):
                first, second = self.text[a.begin : a.end], self.text[b.begin : b.end]
                pieces += [(a.begin, a.end, second), (b.begin, b.end, first)]
            yield Mutant(f"turn {nth(at + 1)} and {nth(other + 1)} parameter", tuple(pieces))

    def of_equations(self):
        atoms = [it for it in self.chunks[1:] if any(of.word == "=" for of in it)]
        equations = [Equation(it) for it in atoms]
        equations = [it for it in equations if it.right]
        several = len(equations) > 1
        for at, it in enumerate(equations):
            yield from Region(it.right, f" in case {at + 1}" if several else "").mutants(self.has)
        for at, it in enumerate(equations) if several else ():
            other = at + 1 if at + 1 < len(equations) else at - 1
            if not (equations[other].used() & (equations[other].names() - it.names())):
                new = equations[other].text(self.text)
                yield Mutant(f"answer case {at + 1} as case {other + 1}", ((it.right[0].begin, it.right[-1].end, new),))
        yield from self.turned(self.parameters_of_equations(equations))

    def parameters_of_equations(self, equations):
        """The parameters that all equations name: the type, and what stands for it in each."""
        atoms = self.chunks[0]
        colon = next(at for at, it in enumerate(atoms) if it.word == ":")
        types = []
        for part in split_at(atoms[colon + 1 :], ("→",))[:-1]:
            part = [it for it in part if it.word != "{"]
            if not part:
                continue
            if is_binder(part):
                return
            types.append(in_one_line(self.text[part[0].begin : part[-1].end]))
        lefts = [it.left for it in equations]
        if not lefts or any(it[0].word != self.declared.name.rpartition(".")[2] for it in lefts):
            return
        lefts = [[of for of in it[1:] if of.word != "{"] for it in lefts]
        for at in range(min([len(types), *(len(it) for it in lefts)])):
            yield types[at], [it[at] for it in lefts]


def definitions_of(path, text):
    """The definitions of a file, those that have mutants and the others."""
    imports, _, made = declared_in(path, text)
    return [Definition(it, text, imports, [of.name for of in made]) for it in made]
