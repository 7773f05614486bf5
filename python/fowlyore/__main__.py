"""The command line: `python -m fowlyore`, or `fowlyore` if the package is installed."""

import argparse
import errno
import importlib
import io
import json
import os
import re
import shutil
import signal
import sys
import warnings
from contextlib import contextmanager, suppress
from pathlib import Path
from typing import Any, BinaryIO, Callable, Dict, Iterable, Iterator, List, NamedTuple, NoReturn, Optional, Tuple, Union

from . import __version__, tables
from .distributions import installed
from .errors import columns, shown
from .explanations import Explanation, check_explained
from .files import has_groups, read, read_text, refuse_groups
from .listings import LeftOut, Listing
from .lists import (
    GREATEST_LIMIT, LIMIT, Comparison, Covering, Input, InvalidInput, Row, check, conflicts, covers, environment_input,
    environments_input, matrix, normal, read_input, same,
)  # fmt: skip
from .markers import completed
from .offered import read_candidates, wheelhouse
from .pip_files import read_list
from .progress import Progress, is_terminal
from .urls import MarkerInURLWarning
from .utils import normal_name
from .version import InvalidVersion, Version

ANSWERED, DIFFERENT, REFUSED, NOT_READ, STRICT = range(5)
Source = Union[Path, bytes]
# What a standard stream is called.
OUTPUT = "standard output"
# The refusal of a part of a line, below which it is marked.
OF_LINE = re.compile(r"(?P<where>.*, byte [0-9]+, length [0-9]+)\n(?P<why>.*)\n(?P<line>[^\n]*)\n(?P<marks> *\^+)\n*", re.S)
# The words that name an input.
INPUTS = ("requirements", "environment", "environments", "candidates", "left", "right", "lock")

STATUSES = """exit status: 0 after an answer, 1 where `same` or `covers` said no, 2 where an input or the command line is refused,
3 where memory ran out or a file can't be read or written, as a standard stream that is closed, and 4 with --strict where a row is
none or there is a conflict.
FILE may be `-` once, for standard input. It is a requirements file of pip, as a list with a requirement (PEP 508) a line is one,
unless its name says otherwise: pyproject.toml, pylock.toml, METADATA, PKG-INFO, *.whl, *.tar.gz, or the folder of a project or of an
installed distribution."""


def source(word: str, reading: Callable[[BinaryIO], bytes] = read_input) -> Source:
    """An input: the bytes of standard input, as they are read there, or a path."""
    if word != "-":
        return path_of(word)
    # (None where the process was started without it)
    if sys.stdin is None:
        raise OSError("standard input is closed")
    with of_stream("standard input"):
        return reading(sys.stdin.buffer)


def path_of(word: str) -> Path:
    """The path that a word names. An empty one names nothing, of which `Path` would make the working folder."""
    if not word:
        raise FileNotFoundError(errno.ENOENT, os.strerror(errno.ENOENT), "''")
    return Path(word)


@contextmanager
def of_stream(name: str) -> Iterator[None]:
    """Names a standard stream in the error of reading or writing it."""
    try:
        yield
    except OSError as error:
        error.filename = name
        raise


def discard(stream: Any) -> None:
    """Sends to nowhere what is kept for a stream that can't be written, so that the interpreter doesn't fail
    to write it when it ends."""
    with suppress(OSError):
        os.dup2(os.open(os.devnull, os.O_WRONLY), stream.fileno())


def listing(word: str, groups: List[str]) -> Listing:
    """The list of this name; reports what is left out of it."""
    given = source(word, lambda file: read_list(word, file))
    if isinstance(given, bytes) and groups:
        refuse_groups(word)
    found = read_text(given) if isinstance(given, bytes) else read(given, groups=groups)
    tell_left_out(found.left_out)
    return found


def tell_left_out(left_out: Iterable[LeftOut]) -> None:
    for it in left_out:
        complain(str(it))


def tell_assumed(found: Listing) -> Listing:
    """Reports what a list's file says of environments where that is ignored; for single lines once."""
    of_lines = [it for it in found.assumed if it.line]
    for it in (it for it in found.assumed if not it.line or it is of_lines[0]):
        others = ", nor is that of other lines" if it.line and of_lines[1:] else ""
        complain(f"{it.place}: {it.what} {it.text} is not looked at{others}")
    return found


def asked(words: argparse.Namespace) -> Listing:
    """The list of `check` and `matrix`; reports extras that its file doesn't define."""
    found = listing(words.requirements, words.group)
    for it in words.extra:
        if found.provided_extras is not None and normal_name(it) not in found.provided_extras:
            complain(f"{found.path}: there is no extra {it}")
    return found


def show(*words: object, sep: str = "\n") -> None:
    """Prints a part of the answer, and no line of nothing."""
    if sys.stdout is None:
        raise OSError(f"{OUTPUT} is closed")
    with of_stream(OUTPUT):
        print(*words, sep=sep, end="\n" if words else "")


def flush_output() -> None:
    """Writes what was printed and is still kept."""
    if sys.stdout is not None:
        with of_stream(OUTPUT):
            sys.stdout.flush()


def told(error: InvalidInput) -> str:
    """What an error says, as it is shown: one sentence; or where it stands, why, the line, and marks below that. Where something
    of the line is shown by its number, the marks are made anew, for the columns that its part at fault has then."""
    said, path = str(error), f"{error.path}: "
    found = OF_LINE.fullmatch(said, len(path) if said.startswith(path) else 0)
    if found is None or error.text is None or not error.text.startswith(found["line"]):
        return on_one_line(said)
    text, start, end, line, marks = error.text, error.start, error.end, shown(found["line"]), found["marks"]
    if start is not None and end is not None and line != found["line"]:
        marks = " " * columns(shown(text[:start])) + "^" * max(1, columns(shown(text[start:end])))
    return "\n".join([on_one_line(said[: found.end("where")]), on_one_line(found["why"]), line, marks])


def on_one_line(sentence: str) -> str:
    """A sentence as it is shown. A line feed is in it only by what others have named, as a file, and is shown by its number."""
    return shown(sentence).replace("\n", "\\u{a}")


def complain(sentence: str) -> None:
    """Prints a sentence on standard error."""
    show_error(f"fowlyore: {on_one_line(sentence)}")


def show_error(text: str) -> None:
    """Prints on standard error, if that can be written: without it `print` would write to standard output."""
    if sys.stderr is None:
        return
    try:
        print(text, file=sys.stderr, flush=True)
    except OSError:
        discard(sys.stderr)


class Parser(argparse.ArgumentParser):
    """A parser of words. Where a standard stream is closed, argparse would print on another one, and it
    ignores that one can't be written."""

    def error(self, message: str) -> NoReturn:
        if sys.stderr is None:
            self.exit(REFUSED)
        # (words are named in it as they were given)
        super().error(on_one_line(message))

    def _print_message(self, message: str, file: Any = None) -> None:
        if file is not None and file is sys.stderr:
            show_error(message.rstrip("\n"))
        else:
            show(message.rstrip("\n"))
            flush_output()


def limit_of(word: str) -> int:
    """A limit as `reqs` reads one."""
    # (int refuses a text of some thousand digits, also of zeros)
    found = re.fullmatch(r"\+?0*([0-9]{1,7})", word)
    if found is None or int(found[1]) > GREATEST_LIMIT:
        raise argparse.ArgumentTypeError(f"{word!r} is no number from 0 to {GREATEST_LIMIT}")
    return int(found[1])


def parser() -> argparse.ArgumentParser:
    about = "Judges lists of Python requirements, and compares them. The answers are those of a proved library."
    words = Parser(prog="fowlyore", description=about, epilog=STATUSES)
    words.add_argument("--version", action="version", version=f"fowlyore {__version__}")
    commands = words.add_subparsers(dest="command", metavar="COMMAND", required=True)
    add_check(commands)
    add_matrix(commands)
    it = add(commands, "same", "print whether two lists require the same everywhere, or where they first differ")
    it.add_argument("left", metavar="OLD", help="a list")
    it.add_argument("right", metavar="NEW", help="another list")
    add_limit(it)
    it = add(commands, "covers", "print whether a lock file requires whatever a list does, or where it first doesn't")
    it.add_argument("lock", metavar="LOCK", help="a list, as a lock file")
    it.add_argument("requirements", metavar="FILE", help="the list that it has to cover")
    add_limit(it)
    it = add(commands, "conflicts", "print the lines of a list that contradict each other where they apply together")
    it.add_argument("requirements", metavar="FILE", help="the list")
    add_limit(it)
    it.add_argument("--strict", action="store_true", help="status 4 where there is a conflict")
    it = add(commands, "normal", "print a list in its one normal form")
    it.add_argument("requirements", metavar="FILE", help="the list")
    return words


def add(commands: Any, name: str, about: str) -> argparse.ArgumentParser:
    it: argparse.ArgumentParser = commands.add_parser(name, help=about, description=f"{about[0].upper()}{about[1:]}.")
    of_group = "a dependency group, of pyproject.toml in addition, of a lock file in place of its default groups"
    of_group += "; may be repeated"
    it.add_argument("--group", action="append", default=[], metavar="NAME", help=of_group)
    return it


def add_limit(it: argparse.ArgumentParser, default: Optional[int] = LIMIT, without: str = f"{LIMIT}") -> None:
    """Adds `--limit`; `without` says what happens without it."""
    of_limit = f"how many cases a package may have, which are sets of its lines that apply together ({without})"
    it.add_argument("--limit", type=limit_of, default=default, metavar="N", help=of_limit)


def add_check(commands: Any) -> None:
    about = "print the highest candidate of each package that a list requires, or none, or direct for a URL"
    it = add(commands, "check", about)
    it.add_argument("requirements", metavar="FILE", help="the list")
    environment = it.add_mutually_exclusive_group()
    of_values = "a file of all values for markers (else this interpreter's)"
    environment.add_argument("--environment", metavar="JSON", help=of_values)
    of_version = "this interpreter's values, but of another version (implementation_version only on CPython)"
    environment.add_argument("--python-version", metavar="VERSION", help=of_version)
    add_candidates(it)
    it.add_argument("--explain", action="store_true", help="say below each none which lines refuse the highest candidates")
    it.add_argument("--strict", action="store_true", help="status 4 where a row is none")


def add_matrix(commands: Any) -> None:
    it = add(commands, "matrix", "print for each of some environments what check prints for it")
    it.add_argument("requirements", metavar="FILE", help="the list")
    it.add_argument("environments", metavar="JSON", help="a file of a list of environments")
    add_candidates(it)
    add_limit(it, None, f"none: where it has more than {LIMIT}, each environment is checked by itself")
    it.add_argument("--strict", action="store_true", help="status 4 where a row is none")


def add_candidates(it: argparse.ArgumentParser) -> None:
    of_file = "names with versions: a file with one a line, pylock.toml, the .json of a package index (else what is installed)"
    offers = it.add_mutually_exclusive_group()
    offers.add_argument("--candidates", metavar="FILE", help=of_file)
    of_folder = "a folder of wheels and source archives, which are the candidates; may be repeated"
    offers.add_argument("--wheelhouse", action="append", default=[], metavar="DIR", help=of_folder)
    of_python = "answer though FILE, by requires-python or a lock file's environments, leaves the environment out"
    it.add_argument("--ignore-requires-python", action="store_true", help=of_python)
    of_format = "as text for programs, a table for people, or a page of HTML (%(default)s)"
    it.add_argument("--format", choices=("text", "table", "html"), default="text", help=of_format)
    it.add_argument("--extra", action="append", default=[], metavar="NAME", help="an extra that is requested; may be repeated")


# Why files aren't held against an interpreter, and why wheels aren't by their tags.
NO_INTERPRETER = "Requires-Python and the tags of wheels are not looked at: there are several environments"
NO_TAGS = "the tags of wheels are not looked at:"


class Interpreter(NamedTuple):
    """What files have to be for to be candidates: the version of an interpreter and its tags; and which of these isn't known
    and why, as a sentence."""

    python: Optional[str] = None
    tags: Optional[List[str]] = None
    unknown: str = ""


def interpreter_of(words: argparse.Namespace, environment: Input) -> Interpreter:
    """The interpreter of `check`. Its tags are known of the running one, where the package `packaging` is there."""
    try:
        python = Version(json.loads(environment.text)["python_full_version"])
    except (ValueError, KeyError, TypeError, AttributeError, RecursionError):
        # (the library refuses this environment)
        return Interpreter()
    if words.environment is not None or words.python_version is not None:
        return Interpreter(str(python), None, f"{NO_TAGS} the environment is not the running interpreter's")
    try:
        tags = importlib.import_module("packaging.tags")
    except ImportError:
        return Interpreter(str(python), None, f"{NO_TAGS} that takes the package packaging (pip install packaging)")
    return Interpreter(str(python), [str(it) for it in tags.sys_tags()])


def is_of_files(word: Optional[str]) -> bool:
    """Whether candidates are read of the names of files: of a folder, or of a page of an index."""
    return word is not None and (os.path.isdir(word) or word.endswith(".json"))


def candidates_of(words: argparse.Namespace, interpreter: Interpreter) -> Any:
    """The named or else the installed candidates; reports what is no candidate."""
    if not words.wheelhouse and words.candidates is None:
        return installed_told()
    told: List[LeftOut] = []
    wanted: Any = {"python": interpreter.python, "tags": interpreter.tags}
    offered: Any
    if words.wheelhouse:
        offered = [it for folder in words.wheelhouse for it in wheelhouse(path_of(folder), told, **wanted)]
    else:
        given = source(words.candidates)
        offered = given if isinstance(given, bytes) else read_candidates(given, told, **wanted)
    if interpreter.unknown and (words.wheelhouse or is_of_files(words.candidates)):
        complain(interpreter.unknown)
    tell_left_out(told)
    return offered


def installed_told() -> Any:
    """What is installed; reports what of this is no candidate."""
    left_out: List[str] = []
    found = installed(left_out)
    for it in left_out:
        complain(f"{it} is installed and left out: a name or version that can't be read")
    return found


def environment_of(words: argparse.Namespace) -> Any:
    if words.environment is not None:
        return source(words.environment)
    return completed({} if words.python_version is None else versions_of(words.python_version))


def versions_of(full: str) -> Dict[str, str]:
    """The values for an interpreter of this version. An invalid version is left to the library, which
    refuses it."""
    try:
        version = Version(full)
    except InvalidVersion:
        return {"python_version": full}
    values = {"python_full_version": full, "python_version": f"{version.major}.{version.minor}"}
    # (the version of another implementation isn't that of the language)
    return {**values, "implementation_version": full} if sys.implementation.name == "cpython" else values


def run_check(words: argparse.Namespace) -> int:
    found, environment = asked(words), environment_input(environment_of(words))
    inputs: Any = (found, environment, candidates_of(words, interpreter_of(words, environment)), words.extra)
    ignored = words.ignore_requires_python
    with Progress("checking"):
        if words.explain:
            rows, explanations = check_explained(*inputs, ignore_requires_python=ignored)
        else:
            rows, explanations = check(*inputs, ignore_requires_python=ignored), []
    show_rows(words, rows, explanations)
    return STRICT if words.strict and any(it.is_none for it in rows) else ANSWERED


def show_rows(words: argparse.Namespace, rows: List[Row], explanations: List[Explanation]) -> None:
    """The answer of `check`, in the requested format."""
    if words.format == "html":
        show(tables.check_page(rows, explanations, f"check {words.requirements}"))
    elif words.format == "table":
        show(*tables.check_table(rows, explanations, width(), has_colours()))
    else:
        why = {it.name: it.sentences for it in explanations}
        for row in rows:
            show(row, *map(shown, why.get(row.name, ())), sep="\n    ")


def width() -> Optional[int]:
    """How many columns the terminal has that is written to, and nothing where it is none."""
    return shutil.get_terminal_size().columns if sys.stdout is not None and sys.stdout.isatty() else None


def has_colours() -> bool:
    """Whether a table may have colours: on a terminal alone, and not where NO_COLOR asks for none."""
    return is_terminal(sys.stdout) and not os.environ.get("NO_COLOR")


def run_matrix(words: argparse.Namespace) -> int:
    environments: Any = environments_input(source(words.environments))
    candidates: Any = candidates_of(words, Interpreter(unknown=NO_INTERPRETER))
    with Progress("answering for each environment"):
        how = {"limit": words.limit, "ignore_requires_python": words.ignore_requires_python}
        answers = matrix(asked(words), environments, candidates, words.extra, **how)
    if words.format == "text":
        for number, rows in enumerate(answers, 1):
            show(f"env {number}", *rows)
    else:
        grid = tables.Grid.of(answers, json.loads(environments.text))
        page = words.format == "html"
        title = f"matrix {words.requirements}"
        show(*([tables.matrix_page(grid, title)] if page else tables.matrix_table(grid, width(), has_colours())))
    return STRICT if words.strict and any(it.is_none for rows in answers for it in rows) else ANSWERED


def two_listings(one: str, other: str, groups: List[str]) -> Tuple[Listing, Listing]:
    """Two lists; the groups are those of the projects and lock files among them."""
    with_groups = [it for it in (one, other) if has_groups(it)] or [one, other]
    left, right = (tell_assumed(listing(it, groups if it in with_groups else [])) for it in (one, other))
    return left, right


def run_same(words: argparse.Namespace) -> int:
    left, right = two_listings(words.left, words.right, words.group)
    return show_relation(same(left, right, words.limit))


def run_covers(words: argparse.Namespace) -> int:
    lock, requirements = two_listings(words.lock, words.requirements, words.group)
    return show_relation(covers(lock, requirements, words.limit))


def show_relation(answer: Union[Comparison, Covering]) -> int:
    """Prints whether two lists are related as is asked, and gives the status."""
    show(answer)
    return ANSWERED if answer else DIFFERENT


def run_conflicts(words: argparse.Namespace) -> int:
    found = conflicts(tell_assumed(listing(words.requirements, words.group)), words.limit)
    for it in found:
        show(it)
    return STRICT if words.strict and found else ANSWERED


def run_normal(words: argparse.Namespace) -> int:
    for it in normal(tell_assumed(listing(words.requirements, words.group))):
        show(it)
    return ANSWERED


RUNS = {
    "check": run_check, "matrix": run_matrix, "same": run_same, "covers": run_covers, "conflicts": run_conflicts,
    "normal": run_normal,
}  # fmt: skip


def write_utf8() -> None:
    """Makes all output UTF-8, as `reqs` does, whatever the encoding of the locale is. Bytes of a path that aren't UTF-8 are
    written by their numbers."""
    for it in (sys.stdout, sys.stderr):
        if isinstance(it, io.TextIOWrapper):
            it.reconfigure(encoding="utf-8", errors="backslashreplace")


def complain_of_warnings() -> None:
    """Prints this package's warnings as sentences, until the filters are restored."""
    show_another = warnings.showwarning

    def show_warning(message: Any, category: Any, *place: Any, **more: Any) -> None:
        if issubclass(category, MarkerInURLWarning):
            complain(str(message))
        else:
            show_another(message, category, *place, **more)

    warnings.simplefilter("always", MarkerInURLWarning)
    warnings.showwarning = show_warning


def run(said: argparse.Namespace) -> int:
    """Runs the command that the words ask for, and returns its exit status."""
    if sum(getattr(said, it, None) == "-" for it in INPUTS) > 1:
        complain("standard input (-) can be one input alone")
        return REFUSED
    with warnings.catch_warnings():
        complain_of_warnings()
        status = RUNS[said.command](said)
    flush_output()
    return status


def status_of(words: Optional[List[str]]) -> int:
    """Runs a command, tells what is refused or fails, and returns the exit status."""
    try:
        return run(parser().parse_args(words))
    except InvalidInput as error:
        show_error(f"fowlyore: {told(error)}")
        return REFUSED
    except BrokenPipeError:
        discard(sys.stdout)
        return NOT_READ
    except OSError as error:
        complain(f"{error.filename}: {error.strerror}" if error.filename else str(error))
        if error.filename == OUTPUT:
            discard(sys.stdout)
        return NOT_READ
    except MemoryError:
        complain("memory ran out")
        return NOT_READ


def end_by_interrupt() -> int:
    """Ends the process by the signal that interrupted it, as if that were not handled, so that who runs it sees that. What
    is printed and still kept isn't written. Returns the status that shells give for it, where the signal is blocked."""
    signal.signal(signal.SIGINT, signal.SIG_DFL)
    signal.raise_signal(signal.SIGINT)
    return 128 + signal.SIGINT


def main(words: Optional[List[str]] = None) -> int:
    """Runs a command, by default that of the process, and returns its exit status. A process that is interrupted, as by
    Ctrl-C, ends by that."""
    if words is not None:
        return status_of(words)
    try:
        Progress.is_wanted = True
        write_utf8()
        return status_of(None)
    except KeyboardInterrupt:
        return end_by_interrupt()


if __name__ == "__main__":
    sys.exit(main())
