"""Wrong edits: what their files say, whether they fit, and which functions they change.

An edit file names a file of the crate (`file:`), and after it has pairs of lines: a text that stands there
once (`old:`) and the wrong one that the edit puts in its place (`new:`). A line `control:` after a pair has
a right text for the same place and of the same shape as the wrong one: the edit's control is the crate with
these texts in place of theirs, and no other.
"""

import collections
import difflib
import hashlib
import os
import re

import seen
from crates import PARTS, TOP

FOLDER = os.path.join(TOP, "tests", "wrong")
GATE = os.path.join(FOLDER, "gate.txt")
JUDGED = os.path.join(FOLDER, "judged.txt")
JUDGED_HEAD = """\
# By crate the sum of its texts and its edits as they were when all of its edits were last tried (docs/GATE.md). The gate
# tries all edits of a crate that differs, and `./test --wrong CRATE` writes its line anew. With `before` they were tried
# before there was this list.
"""
NAME = re.compile(r"[A-Za-z0-9_-][A-Za-z0-9_.-]*\.edit")
HEADER = re.compile(r"^( *)(?:pub(?:\([a-z]+\))? )?(?:unsafe |const |extern \"C\" )*fn (\w+)", re.M)
BLOCK = re.compile(r"^(impl|(?:pub(?:\([a-z]+\))? )?trait)\b(.*?)\{", re.M | re.S)
ITEM = r"^ {0,%d}(?:pub(?:\([a-z]+\))? )?(?:const|static|struct|enum|impl|trait|mod|type|use)\b(?! fn)"
FLOORS = ("least", "least-in-all")

Pair = collections.namedtuple("Pair", "file old new control")


class Misfit(Exception):
    """Why an edit or its control doesn't fit the files that it changes."""


class Change:
    """Texts that are put in place of others in a crate's files."""

    def __init__(self, folder, parts):
        self.folder, self.parts = folder, parts
        self.functions = functions_changed(folder, self.over({}))
        # (None stands for what is in no function, as an import)
        self.named = [it for it in self.functions if it]

    def over(self, texts):
        """The texts of files, these and those that the change is in, with the change in them."""
        texts = dict(texts)
        for file, old, new in self.parts:
            if file not in texts:
                texts[file] = text_of(self.folder, file)
            found = texts[file].count(old)
            if found != 1:
                raise Misfit(f"an 'old:' text stands in {file} {found} times, and not once")
            texts[file] = texts[file].replace(old, new)
        return texts


class Edit:
    """A wrong edit of a crate, and its control if it has one; `why` is why it doesn't fit, if it doesn't."""

    def __init__(self, crate, path):
        self.crate, self.path, self.why = crate, path, None
        self.name = os.path.basename(path)[: -len(".edit")]
        self.label = f"{crate.name}/{self.name}"
        self.wrong = self.control = None
        # (an edit that the gate always tries has to be refused beside others, which costs least)
        self.may_be_alone = True
        try:
            with open(path, "rb") as file:
                self.content = file.read()
            pairs = pairs_of(self.content.decode(errors="replace"))
            self.wrong = Change(crate.folder, [(it.file, it.old, it.new) for it in pairs])
            self.control = control_of(crate.folder, pairs)
            if self.control and {*self.control.functions} != {*self.wrong.functions}:
                raise Misfit("its control changes another function")
        except (Misfit, OSError) as error:
            self.why = str(error)

    def changes(self):
        return [it for it in (self.wrong, self.control) if it]


def text_of(folder, file):
    if not file.startswith(tuple(f"{it}/" for it in PARTS)) or os.path.normpath(file) != file:
        raise Misfit(f"{file} is no file of src/, specs/ or proofs/")
    try:
        with open(os.path.join(folder, file), encoding="utf-8") as it:
            return it.read()
    except OSError as error:
        raise Misfit(f"there is no file {file}") from error


def pairs_of(text):
    """The pairs of an edit's text."""
    file, old, pairs, is_behind = None, None, [], False
    for line in text.split("\n"):
        word, _, rest = line.partition(" ")
        if word == "file:":
            file, old = rest.strip(), None
        elif word == "old:":
            old = rest
        elif word == "new:":
            if not file or not old:
                raise Misfit("a 'new:' stands before its 'file:' or 'old:'")
            pairs.append(Pair(file, old, rest, None))
            old = None
        elif word == "control:":
            if not is_behind:
                raise Misfit("a 'control:' stands behind no 'new:'")
            pairs[-1] = pairs[-1]._replace(control=rest)
        if word in ("file:", "old:", "new:", "control:"):
            is_behind = word == "new:"
        elif file and line.strip():
            raise Misfit(f"a line says none of file:, old:, new: and control:, as its text is one line: {line[:60]}")
    if not pairs:
        raise Misfit("it has no 'old:' and 'new:'")
    return pairs


def control_of(folder, pairs):
    """The change that is the control of an edit of these pairs, or None."""
    with_control = [it for it in pairs if it.control is not None]
    if any(it.control.split() == it.old.split() for it in with_control):
        raise Misfit("a 'control:' has the same text as its 'old:'")
    rights = [it.old if it.control is None else it.control for it in pairs]
    if with_control and [it.split() for it in rights] == [it.new.split() for it in pairs]:
        raise Misfit("its control is the edit itself")
    try:
        parts = [(it.file, it.old, it.control) for it in with_control]
        return Change(folder, parts) if parts else None
    except Misfit as error:
        raise Misfit(f"its control: {error}") from error


def functions_changed(folder, texts):
    """The functions that change with these texts in place of a crate's own; None is what is no function's."""
    found = []
    for file, text in texts.items():
        old, new = text_of(folder, file).split("\n"), text.split("\n")
        for kind, _, _, at, end in difflib.SequenceMatcher(None, old, new, autojunk=False).get_opcodes():
            if kind != "equal":
                found.append(function_at(file, text, sum(len(it) + 1 for it in new[:at]) + (end > at)))
    return found


def function_at(file, text, at):
    """The end of the name by which the prover tells of the function that stands there, or None."""
    headers = [it for it in HEADER.finditer(text) if it.start() <= at]
    if not headers or not file.startswith("src/"):
        return None
    indent, name = headers[-1].groups()
    line_end = (text + "\n").index("\n", at)
    if re.search(ITEM % len(indent), text[headers[-1].end() : line_end], re.M):
        return None
    if not indent:
        return "::".join([*file[len("src/") : -len(".rt")].split("/"), name]).removeprefix("lib::")
    blocks = list(BLOCK.finditer(text[: headers[-1].start()]))
    return "::".join([block_name(*blocks[-1].groups()), name]) if blocks else None


def block_name(kind, head):
    """The name by which the prover tells of an `impl` or a trait."""
    head, before = head.replace("->", ""), None
    if kind != "impl":
        return re.match(r"\s*(\w+)", head)[1]
    at_types = re.fullmatch(r"\s+(\w+)<([^<>]+)>\s*", head)
    if at_types:
        types = [it.strip() for it in at_types[2].split(",") if not it.strip().startswith("'")]
        return "+".join([at_types[1], *types])
    while before != head:
        before, head = head, re.sub(r"<[^<>]*>", "", head)
    names = [it.strip().rpartition("::")[2] for it in head.partition(" where ")[0].split(" for ")]
    return "".join(reversed(names))


def edits_of(crate):
    """The crate's edits in tests/wrong/ by name, and what there is no edit."""
    edits, faults = {}, []
    folder = os.path.join(FOLDER, crate.name)
    for name in sorted(os.listdir(folder)) if os.path.isdir(folder) else []:
        path = os.path.join(folder, name)
        if NAME.fullmatch(name) and os.path.isfile(path):
            edit = Edit(crate, path)
            edits[edit.name] = edit
        elif not name.endswith(".md"):
            faults.append(f"{os.path.relpath(path, TOP)}: its name is none of an edit, NAME.edit")
    return edits, faults


def read_gate():
    """What tests/wrong/gate.txt says: the names of the gate's edits by crate, and the floors."""
    chosen, floors = {}, {}
    with open(GATE, encoding="utf-8") as file:
        for line in file:
            name, colon, words = line.partition("#")[0].partition(":")
            if colon:
                (floors if name.strip() in FLOORS else chosen)[name.strip()] = words.split()
    return chosen, floors


def judged_sum(crate, edits):
    """The sum of a crate's texts without comments and of its edits, which are given by name."""
    total = hashlib.sha256(seen.code_sum(crate).encode())
    for name in sorted(edits):
        total.update(repr((name, edits[name].content)).encode())
    return total.hexdigest()[:16]


def read_judged():
    """What tests/wrong/judged.txt says: by crate a sum, and a word behind it or none."""
    found = {}
    with open(JUDGED, encoding="utf-8") as file:
        for line in file:
            name, equals, said = line.partition("#")[0].partition(" = ")
            if equals:
                found[name] = said.split()
    return found


def write_judged(sums, crates):
    """Puts the sums of crates whose edits were all tried into tests/wrong/judged.txt."""
    found = {**read_judged(), **{name: [it] for name, it in sums.items()}}
    lines = [f"{it} = {' '.join(found[it])}\n" for it in crates if it in found]
    with open(f"{JUDGED}.new", "w", encoding="utf-8") as file:
        file.writelines([JUDGED_HEAD, *lines])
    os.replace(f"{JUDGED}.new", JUDGED)


def strays(crates):
    """Folders of tests/wrong/ that no crate has."""
    names = sorted(os.listdir(FOLDER))
    return [it for it in names if it not in crates and it not in ("gate.txt", "judged.txt") and not it.endswith(".md")]
