#!/usr/bin/env python3
"""Holds the figures that the documents state against those that were measured, which stand in bench/figures.json.

    figures.py --check    fails where a document states another figure, lacks one that it is to state, or has one of its own
    figures.py --fill     writes the figures into the sentences of the documents, and then does the same

A **figure** there has its value and unit, what it is of, the command of bench/ that measured it, the date, and the machine's
cores and clock; null is what nobody wrote down. The word `--write` of a measuring script puts its own figures there. A
**sentence** is one of a document with a hole for each figure: `{NAME}` is the figure with its unit, `{NAME/of}` what it is of, `{NAME/cores}` and
`{NAME/clock}` tell of its machine. A **bound** isn't measured: a sentence whose numbers some file of the repository holds,
and that file's own words.

The documents are README.md, CHANGELOG.md, the pages of docs/, examples/README.md and rust/fowlyore/README.md, but for those of
LEFT_OUT: dated tables and accounts of single runs for those who work on the repository, as bench/README.md is one. Each sentence
and bound has to stand in its document just once, as a whole sentence or clause. Beside a sentence its paragraph may have no digit,
and elsewhere no document may have a word of time, memory or speed (MEASURED, SPEED). The last line is `N passed, M failed`.
"""

import glob
import json
import os
import re
import shlex
import subprocess
import sys
import time

TOP = os.path.dirname(os.path.dirname(os.path.abspath(__file__)))
FILE = os.path.join(TOP, "bench", "figures.json")
DOCUMENTS = ("README.md", "CHANGELOG.md", "docs/*.md", "examples/README.md", "rust/fowlyore/README.md")
LEFT_OUT = {f"docs/{it}.md" for it in ("DECISIONS", "FILES", "GATE", "VECTORS")}
UNITS = ("µs", "ms", "s", "minutes", "KiB", "MiB", "MB", "times")
FIELDS = ["value", "unit", "of", "command", "date", "cores", "clock"]
COUNTS = ("no", "one", "two", "three", "four", "five", "six", "seven", "eight")

HOLE = re.compile(r"\{([\w.]+)(?:/(cores|clock|of))?\}")
# The white space between words, what a hole may have held before, and where a sentence or clause begins and ends.
WHITE = r"(?: |\n *)"
HELD = rf"[\w.,]+(?:{WHITE}(?:{'|'.join((*UNITS, 'GHz'))})(?!\w))?"
HELD_OF = "[^:;|]+?"
BEGIN = r"(?:\A[-\s*|]*|[.:;|][\s*]+)"
END = r"(?=[.:;](?:\s|\Z)|\s*(?:\||\Z))"
PARAGRAPH = re.compile(r"^(?=- |\||#|[ \t]*$)", re.M)
MEASURED = re.compile(r"""
    (?<![a-z]) (?: ns | [µμ]s | ms | [kmgt]i?b | [mg]hz | (?:milli|micro|nano)?seconds | (?<!the\ )second | minutes? | hours?
               | times (?!\ it) | \w*fold | percent (?!\ encod) | twice | thrice | instructions ) (?![a-z])
    | \d (?:[\d.,]*\d)? \s* (?: s | sec | us | h | days? | [x×%] | (?:\w+\s)?bytes? ) (?!\w)
    | \b (?: half | third | quarter | fifth | tenth | hundredth ) \s (?: of\ the | the | as ) \b""", re.I | re.X)
SPEED = re.compile(r"\b(?:fast|slow|quick)(?:er|est)?\b", re.I)
NUMBER = re.compile(r"\d[\d,_]*")


def load():
    with open(FILE, encoding="utf-8") as file:
        return json.load(file)


def save(kept):
    """Writes the file beside, a figure, sentence or bound a line, and renames it."""
    parts = []
    for part, of in kept.items():
        is_named = isinstance(of, dict)
        lines = (f"    {json.dumps(name) + ': ' if is_named else ''}{json.dumps(it, ensure_ascii=False)}"
                 for name, it in (of.items() if is_named else enumerate(of)))
        begin, end = "{}" if is_named else "[]"
        parts.append(f"  {json.dumps(part)}: {begin}\n" + ",\n".join(lines) + f"\n  {end}")
    with open(f"{FILE}.new", "w", encoding="utf-8") as file:
        file.write("{\n" + ",\n".join(parts) + "\n}\n")
    os.replace(f"{FILE}.new", FILE)


def clock():
    """The clock that the machine's processor has by its name, or None."""
    try:
        with open("/proc/cpuinfo", encoding="utf-8") as file:
            said = re.search(r"^model name.*@ ([\d.]+)GHz", file.read(), re.M)
    except OSError:
        return None
    return f"{float(said[1]):g} GHz" if said else None


def version_of(program):
    """What a program of this repository says of its version, or else its name."""
    said = subprocess.run([program, "--version"], stdin=subprocess.DEVNULL, capture_output=True, text=True)
    return said.stdout.strip() if said.returncode == 0 and said.stdout.strip() else os.path.basename(program)


def read_words(parser):
    """The words of a measuring script, `--write` among them; of one that measures a native program too, what that is."""
    parser.add_argument("--write", action="store_true", help="put the figures into bench/figures.json")
    has_native = any(it.dest == "native" for it in parser._actions)
    if has_native:
        parser.add_argument("--native-is", metavar="TEXT", help="what the native program is, with its version: asked for by --write")
    given = parser.parse_args()
    if has_native and given.write and given.native and not given.native_is:
        parser.error("--write and --native ask for --native-is")
    return given


def put(measured):
    """Puts what the running script measured in place of what it measured before: by name a value, its unit and what it is of.

    A name begins with that of the script. Of a value three digits are kept."""
    script, kept = os.path.basename(sys.argv[0]), load()
    words = ["PATH" if os.sep in it else it for it in sys.argv[1:] if it != "--write"]
    how = [shlex.join([f"bench/{script}", *words]), time.strftime("%Y-%m-%d", time.gmtime()), os.cpu_count(), clock()]
    for name, (value, unit, of) in measured.items():
        value = float(f"{value:.3g}")
        kept["figures"][name] = dict(zip(FIELDS, [int(value) if value.is_integer() else value, unit, of, *how]))
    save({**kept, "figures": dict(sorted(kept["figures"].items()))})
    print(f"figures of this run in bench/figures.json: {len(measured)}; `bench/figures.py --fill` writes them into the documents")


def fault_of_figure(name, it):
    """What is wrong with a figure of the file, or None."""
    if list(it) != FIELDS:
        return f"has other fields than {', '.join(FIELDS)}"
    script = re.match(r"bench/(\w+)\.py(?: |$)", it["command"])
    path = os.path.join(TOP, "bench", f"{script[1]}.py") if script else ""
    if not os.path.isfile(path) or not name.startswith(f"{script[1]}."):
        return "has a command that is no script of bench/ after which it is named"
    with open(path, encoding="utf-8") as file:
        if "--write" not in file.read():
            return "is of a script that writes no figures"
    if it["unit"] not in UNITS or type(it["value"]) not in (int, float):
        return "is no number with a unit"
    if it["date"] is not None and not re.fullmatch(r"20\d\d-[01]\d-[0-3]\d", it["date"]):
        return "has a date that is none"
    return None if it["of"] else "doesn't say what it is of"


def shown(figures, hole):
    """What stands in a sentence in place of a hole."""
    name, field = hole.groups()
    if name not in figures:
        raise ValueError(f"there is no figure {name}")
    it = figures[name]
    if field and it[field] is None:
        raise ValueError(f"the {field} of {name} is null")
    if field == "cores":
        return COUNTS[it[field]] if it[field] < len(COUNTS) else str(it[field])
    return it[field] if field else f"{it['value']:,} {it['unit']}"


def filled(figures, said):
    """A sentence with its figures in it."""
    holes = [*HOLE.finditer(said)]
    if not holes or MEASURED.search(HOLE.sub("", said)):
        raise ValueError(f"a sentence without a hole, or with a figure beside its holes: {said}")
    text = HOLE.sub(lambda hole: shown(figures, hole), said)
    machines = {(figures[it[1]]["cores"], figures[it[1]]["clock"]) for it in holes}
    if len(machines) > 1 and any(it[2] == "clock" for it in holes):
        raise ValueError(f"figures of several machines, of which one is told: {said}")
    return text


def plain(words):
    """What finds words, however their lines are broken."""
    return WHITE.join(map(re.escape, words.split(" ")))


def pattern(said):
    """What finds a sentence, however its lines are broken; a hole stands for whatever it may hold."""
    parts, at = [], 0
    for hole in HOLE.finditer(said):
        parts += [plain(said[at : hole.start()]), f"({HELD_OF if hole[2] == 'of' else HELD})"]
        at = hole.end()
    return re.compile(f"(?P<begin>{BEGIN}){''.join(parts)}{plain(said[at:])}{END}")


def documents():
    """Each document's paragraphs, items and rows, by its path."""
    found = {}
    for path in sorted(it for of in DOCUMENTS for it in glob.glob(os.path.join(TOP, of))):
        name = os.path.relpath(path, TOP)
        if name not in LEFT_OUT:
            with open(path, encoding="utf-8") as file:
                found[name] = PARAGRAPH.split(file.read())
    return found


def place(pages, page, said):
    """Where a sentence stands, which has to be one place: the number of its paragraph, and what was found there."""
    whole = pattern(said)
    found = [(at, it) for at, text in enumerate(pages.get(page, [])) for it in whole.finditer(text)]
    if len(found) != 1:
        raise ValueError(f"{page}: stands there {len(found)} times as a sentence or clause, and not once: {said}")
    return found[0]


def fill(kept, pages):
    """Writes the figures into the documents: into all sentences or, where one of them stands nowhere, into none."""
    for it in kept["sentences"]:
        filled(kept["figures"], it["said"])
        at, found = place(pages, it["page"], it["said"])
        text, holes = pages[it["page"]][at], [*HOLE.finditer(it["said"])]
        # (the first group is what the sentence stands behind)
        for group in range(len(holes) + 1, 1, -1):
            begin, end = found.span(group)
            text = text[:begin] + shown(kept["figures"], holes[group - 2]) + text[end:]
        pages[it["page"]][at] = text
    for page in sorted({it["page"] for it in kept["sentences"]}):
        with open(os.path.join(TOP, page), "w", encoding="utf-8") as file:
            file.write("".join(pages[page]))


def take_out(pages, page, said, mark):
    """Takes a sentence out of its document, where a mark stands then."""
    at, found = place(pages, page, said)
    text = pages[page][at]
    pages[page][at] = text[: found.end("begin")] + mark + text[found.end() :]


def numbers(text):
    return {re.sub("[,_]", "", it) for it in NUMBER.findall(text)}


def check_bound(pages, it):
    """Sees that a file holds a bound, and takes it out of its document."""
    with open(os.path.join(TOP, it["held_by"]), encoding="utf-8") as file:
        if file.read().count(it["there"]) != 1:
            raise ValueError(f"{it['held_by']}: has this not once, which is to hold a bound: {it['there']}")
    if not numbers(it["said"]) or not numbers(it["said"]) <= numbers(it["there"]):
        raise ValueError(f"{it['page']}: a bound with other numbers than {it['held_by']} has: {it['said']}")
    take_out(pages, it["page"], it["said"], "")


def left_over(page, paragraphs):
    """What a document has of figures that is no sentence of the file."""
    for text in paragraphs:
        plain = re.sub(r"&nbsp;|&#160;|[*_`\u00a0\u2009\u202f]", " ", text)
        plain = " ".join(re.sub(r"(?<=\d)[-\u2010-\u2015](?=[a-z])", " ", plain).split())
        it = MEASURED.search(plain) or SPEED.search(plain) or "\0" in text and NUMBER.search(plain)
        if it:
            yield f"{page}: `{it[0]}` stands in no sentence of bench/figures.json: {plain[:100]}"


def check(kept, pages):
    """What passed, and what is wrong."""
    faults = [fault and f"bench/figures.json: {name} {fault}" for name, fault in
              ((name, fault_of_figure(name, it)) for name, it in kept["figures"].items())]
    steps = [lambda it=it: check_bound(pages, it) for it in kept["bounds"]]
    steps += [lambda it=it: take_out(pages, it["page"], filled(kept["figures"], it["said"]), "\0") for it in kept["sentences"]]
    for step in steps:
        try:
            step()
            faults.append(None)
        except (OSError, ValueError) as error:
            faults.append(str(error))
    for page, paragraphs in pages.items():
        faults += [*left_over(page, paragraphs)] or [None]
    return faults.count(None), [it for it in faults if it]


def main(words):
    if words not in (["--check"], ["--fill"]):
        print(__doc__, file=sys.stderr)
        return 2
    try:
        kept = load()
        if words == ["--fill"]:
            fill(kept, documents())
        passed, faults = check(kept, documents())
    except (AttributeError, KeyError, OSError, TypeError, ValueError) as error:
        passed, faults = 0, [f"{type(error).__name__}: {error}"]
    for it in faults:
        print(f"FAILED: {it}")
    if faults:
        print("`bench/figures.py --fill` writes what the file has into the documents: bench/README.md")
    print(f"{passed} passed, {len(faults)} failed")
    return 1 if faults else 0


if __name__ == "__main__":
    sys.exit(main(sys.argv[1:]))
