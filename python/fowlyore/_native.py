"""The C library `libreqs`: bytes go in, and bytes or a `Fault` come out. It keeps nothing between calls.

It is called by the extension `fowlyore._extension` where there is one for this interpreter, and otherwise by
ctypes, with the same answers. ctypes loads it for both, so that a process has one library.

Calls on one version or specifier hold the interpreter's lock, since releasing it costs as much as they do, and
the extension holds it for each other call that takes time linear in short texts; all others release it."""

import _thread
import ctypes
import functools
import importlib
import os
import re
import sys
import threading
import types
from typing import Any, Callable, Dict, List, NamedTuple, NoReturn, Optional, Tuple

ABI = 4
ANSWERED, DIFFERENT, REFUSED, MEMORY = 0, 1, 2, 3
# What `reqs_version_key` gives in place of a length.
KEY_REFUSED = -2
# Why a marker that holds nowhere has no normal text.
NEVER_HOLDS = "no normal text: never holds"
# The bytes of a buffer, which nearly every answer about one text fits.
ROOM = 4096
# How much more is given for an answer about many environments before its length is known.
MOST_ROOM = 1 << 26
# The bytes of texts from which on a call may take long: one that takes time linear in them, or nearly so, and any other.
LONG_TEXTS, LONG_MARKERS = 1 << 16, 384
# The bytes of a thread's stack that a call needs.
STACK = 1 << 19
# For how many seconds at a time the main thread waits for a call that another one makes.
PAUSE = 0.1


class Reply(ctypes.Structure):
    """`reqs_reply` of reqs.h."""

    _fields_ = [
        ("status", ctypes.c_uint32),
        ("input", ctypes.c_uint32),
        ("length", ctypes.c_size_t),
        ("line", ctypes.c_size_t),
        ("start", ctypes.c_size_t),
        ("len", ctypes.c_size_t),
    ]


class Fault(Exception):
    """A call that was refused: the reason, the number of the input, and the place, in bytes of the line."""

    def __init__(self, message: str, input: int, line: int, start: int, length: int) -> None:
        super().__init__(message)
        self.message = message
        self.input = input
        self.line = line
        self.start = start
        self.length = length


class TooManyNodes(Fault):
    """A call whose trees have more nodes than it may make."""


class TooManyClauses(Fault):
    """A call that would write a marker of more clauses than it may make."""


# What is said of a call that is refused for a bound, after the place in a list where it has one.
_BEYOND = re.compile(rb"(?:[a-z]+: line [0-9]+: )?more than [0-9]+ (nodes|clauses)(?: for [a-z0-9-]+)?")
_KINDS = {b"nodes": TooManyNodes, b"clauses": TooManyClauses}


def refuse(reason: bytes, input: int, line: int, start: int, length: int) -> NoReturn:
    """Raises the fault of a call that was refused."""
    beyond = _BEYOND.fullmatch(reason)
    kind = Fault if beyond is None else _KINDS[beyond[1]]
    raise kind(reason.decode("utf-8", "replace"), input, line, start, length)


# Buffers of ROOM bytes that no call uses. Each call takes one and gives it back once its answer is read, so that no other
# thread, and nothing that runs in this one meanwhile, as a signal's handler, writes over that.
_free: List[Any] = []
take_buffer, give_buffer = _free.pop, _free.append


def new_buffer() -> Any:
    """Another buffer, when none is free. Its slices are bytes."""
    return ctypes.create_string_buffer(ROOM)


def path() -> str:
    """The path of the library: next to this module, unless FOWLYORE_LIBRARY names another one. An interpreter
    that was started with `-I` or `-E` ignores environment variables, and so does this."""
    beside = os.path.join(os.path.dirname(os.path.abspath(__file__)), "libreqs.so")
    return beside if _ignores_environment() else os.environ.get("FOWLYORE_LIBRARY") or beside


def _ignores_environment() -> bool:
    return bool(sys.flags.isolated or sys.flags.ignore_environment)


def _load(kind: Any) -> Any:
    try:
        return kind(path())
    except OSError as error:
        raise ImportError(f"fowlyore can't load its library: {error}", name="fowlyore", path=path()) from error


_short, _long = _load(ctypes.PyDLL), _load(ctypes.CDLL)


# The functions of the library, as ctypes calls them.
DECLARED: Dict[str, Any] = {}


def _declare(library: Any, name: str, result: Any, texts: int, numbers: int = 0, out: bool = True) -> Any:
    """A function of the library with its types: texts, and then numbers. Bytes are passed as they are, without a
    copy."""
    try:
        call = DECLARED[name] = library[name]
    except AttributeError as error:
        raise ImportError(f"fowlyore can't call its library: {error}", name="fowlyore", path=path()) from error
    call.restype = result
    call.argtypes = [ctypes.c_char_p, ctypes.c_size_t] * texts
    call.argtypes += [ctypes.c_uint64] * numbers + [ctypes.c_void_p, ctypes.c_size_t] * out
    return call


if _declare(_short, "reqs_abi", ctypes.c_uint32, 0, out=False)() != ABI:
    raise ImportError(f"{path()} has another interface than fowlyore wants", name="fowlyore", path=path())

version_key_call = _declare(_short, "reqs_version_key", ctypes.c_int64, 1)


def _extension_module() -> Any:
    """The extension's module, or None where ctypes is to call: where the package has none that is for this
    interpreter, or FOWLYORE_EXTENSION is `no`. That variable may also name a file of it. Raises ImportError if
    that can't be loaded."""
    named = "" if _ignores_environment() else os.environ.get("FOWLYORE_EXTENSION", "")
    if named == "no" or not named and sys.version_info < (3, 10):
        return None
    try:
        module = _module_of(named) if named else importlib.import_module("fowlyore._extension")
        calls = (_declare(_short, name, Reply, 1) for name in ("reqs_version", "reqs_specifiers"))
        # (which fails where another interpreter of this process has had it call another library)
        module.load(ABI, _address(version_key_call), *map(_address, calls))
    except ImportError:
        if named:
            raise
        return None
    return module


def _module_of(file: str) -> Any:
    import importlib.machinery
    import importlib.util

    # (that loader takes no source for one)
    loader = importlib.machinery.ExtensionFileLoader("fowlyore._extension", file)
    spec = importlib.util.spec_from_file_location("fowlyore._extension", file, loader=loader)
    if spec is None or spec.loader is None or sys.version_info < (3, 10):
        raise ImportError(f"{file} is no extension for this interpreter", name="fowlyore", path=file)
    module = importlib.util.module_from_spec(spec)
    spec.loader.exec_module(module)
    return module


def _address(function: Any) -> Optional[int]:
    return ctypes.cast(function, ctypes.c_void_p).value


extension = _extension_module()


def how() -> str:
    """What calls the library: `extension` or `ctypes`."""
    return "ctypes" if extension is None else "extension"


def of_the_extension(written: type, without: Tuple[str, ...] = (), **others: Any) -> Any:
    """A class of the extension, with all that it hasn't taken from the class of that name that is written in Python.
    There it also finds, as `_written_init` and so on, what it leaves the rare cases to. Slots `without` which it does
    are not taken, and `others` stand in place of what is written."""
    base = getattr(extension, written.__name__)
    kept = {name for name in vars(base) if name not in ("__doc__", "__module__")} | {"__weakref__"}
    slots = {name for name, it in vars(written).items() if isinstance(it, types.MemberDescriptorType)}
    rest = {**{name: it for name, it in vars(written).items() if name not in kept | slots}, **others}
    if "__hash__" in kept:
        # (a class that has `__eq__` alone isn't hashed)
        rest["__hash__"] = base.__hash__
    rare = {f"_written_{name}": vars(written)[f"__{name}__"] for name in ("init", "eq", "and") if f"__{name}__" in vars(written)}
    more = tuple(slots - kept - set(without))
    if more:
        return type(written.__name__, (base,), {**rest, **rare, "__slots__": more})
    # (a class above it would take a twelfth more time to make and to drop an object)
    for name, it in {**rest, **rare, "__qualname__": written.__qualname__}.items():
        if name != "__slots__":
            setattr(base, name, it)
    return base


def instead_of(name: str, written: Any) -> Any:
    """A function of the extension, which leaves what is rare to the one that is written in Python; or that one,
    where there is no extension."""
    return written if extension is None else extension.instead(name, written)


def _call(
    name: str, texts: int, numbers: int = 0, short: bool = False, linear: bool = False, long: Optional[int] = None
) -> Callable[..., bytes]:
    """A function of the library, which is given `texts` texts, and as `numbers` that many numbers if there are any, and
    returns its answer. `size` may be given too: the room for the answer at first, which is enough for most.

    `short` is one on single versions and specifiers, and `linear` one that takes time linear in its texts. From `long` bytes
    of texts on it can be interrupted."""
    function = _declare(_short if short else _long, name, Reply, texts, numbers)
    made: Callable[..., bytes] = functools.partial(_answer, function)
    if extension is not None:
        made = extension.call(_address(function), texts, numbers, short or linear)
    return made if long is None else _interruptible(made, long)


def _call_if_there(name: str, texts: int, numbers: int, long: int) -> Callable[..., bytes]:
    """A function that a library of this interface may lack, since it is younger. Without it each call raises `ImportError`."""
    try:
        return _call(name, texts, numbers, long=long)
    except ImportError as error:
        why = str(error)

    def lacking(*texts: bytes, **words: Any) -> bytes:
        raise ImportError(why, name="fowlyore", path=path())

    return lacking


def _interruptible(call: Callable[..., bytes], long: int) -> Callable[..., bytes]:
    """A call that on long texts is made in a thread of its own where this is the main thread. This thread waits for it, and
    meanwhile Python's handlers of signals run here: one that raises, as for Ctrl-C does `KeyboardInterrupt`, ends the
    waiting. The call then goes on until it returns, and its answer is dropped; it keeps no process from ending."""

    def called(*texts: bytes, **words: Any) -> bytes:
        if sum(map(len, texts)) < long or not _is_main_thread():
            return call(*texts, **words)
        return _called_beside(lambda: call(*texts, **words))

    return called


def _is_main_thread() -> bool:
    # (a thread whose stack was said to be small can't make the call)
    return threading.current_thread() is threading.main_thread() and not 0 < threading.stack_size() < STACK


def _called_beside(call: Callable[[], bytes]) -> bytes:
    answers: List[bytes] = []
    errors: List[BaseException] = []
    running = _thread.allocate_lock()

    def run() -> None:
        try:
            answers.append(call())
        except BaseException as error:
            errors.append(error)
        finally:
            running.release()

    running.acquire()
    try:
        _thread.start_new_thread(run, ())
    except RuntimeError:  # there may be no more threads
        return call()
    # (a signal that comes just before the waiting doesn't end that; its handler runs after it)
    while not running.acquire(timeout=PAUSE):
        pass
    if errors:
        raise errors.pop()
    return answers.pop()


def _encoded(text: str) -> bytes:
    try:
        return str.encode(text)
    except UnicodeEncodeError:
        return str.encode(text, "utf-8", "surrogatepass")


# UTF-8, except that a lone surrogate is encoded too: the library then reports that this is not UTF-8.
encoded: Callable[[str], bytes] = _encoded if extension is None else extension.encoded


def _ask(call: Any, texts: Tuple[bytes, ...], numbers: Tuple[int, ...] = (), size: int = ROOM) -> Tuple[Reply, bytes]:
    """The reply of a call and its whole text; the call is repeated with more room if `size` was too little.
    """
    words: List[Any] = []
    for text in texts:
        words += (text, len(text))
    words += numbers
    if size <= ROOM:
        try:
            buffer = take_buffer()
        except IndexError:
            buffer = new_buffer()
        reply = call(*words, buffer, ROOM)
        answer = buffer[: reply.length]
        give_buffer(buffer)
        if reply.length <= ROOM:
            return reply, answer
        size = reply.length
    buffer = ctypes.create_string_buffer(size)
    reply = call(*words, buffer, size)
    return (reply, buffer[: reply.length]) if reply.length <= size else _ask(call, texts, numbers, reply.length)


def _answer(call: Any, *texts: bytes, numbers: Tuple[int, ...] = (), size: int = ROOM) -> bytes:
    """The answer of a call. Raises `Fault` if it is refused, and `MemoryError` when memory runs out."""
    reply, text = _ask(call, texts, numbers, size)
    if reply.status == MEMORY:
        raise MemoryError("libreqs")
    if reply.status == REFUSED:
        refuse(text, reply.input, reply.line, reply.start, reply.len)
    return text


_version = _call("reqs_version", 1, short=True)
_specifiers = _call("reqs_specifiers", 1, short=True)
_take_one = _call("reqs_specifiers_take", 2, short=True)
_take = _call("reqs_specifiers_take", 2, linear=True, long=LONG_TEXTS)
_requirement = _call("reqs_requirement", 1, linear=True)
_marker_check = _call("reqs_marker_check", 1, linear=True)
_marker = _call("reqs_marker", 1, numbers=2, long=LONG_MARKERS)
_marker_key = _call("reqs_marker_key", 1, numbers=1, long=LONG_MARKERS)
_marker_truth = _call("reqs_marker_truth", 1, numbers=1, long=LONG_MARKERS)
_markers_disjoint = _call("reqs_markers_disjoint", 2, numbers=1, long=LONG_MARKERS)
_marker_implies = _call("reqs_marker_implies", 2, numbers=1, long=LONG_MARKERS)
_marker_negated = _call("reqs_marker_negated", 1, numbers=2, long=LONG_MARKERS)
_marker_simplify_python = _call("reqs_marker_simplify_python", 3, numbers=2, long=LONG_MARKERS)
_marker_simplify_extras = _call("reqs_marker_simplify_extras", 2, numbers=2, long=LONG_MARKERS)
_specifiers_disjoint = _call("reqs_specifiers_disjoint", 2, long=LONG_TEXTS)
_specifiers_subset = _call("reqs_specifiers_subset", 2, long=LONG_TEXTS)
_specifiers_empty = _call("reqs_specifiers_empty", 1, long=LONG_TEXTS)
_markers_hold = _call("reqs_markers_hold", 3, linear=True)
_check = _call("reqs_check", 4, long=LONG_TEXTS)
_matrix = _call("reqs_matrix", 4, numbers=3, long=LONG_MARKERS)
_same = _call("reqs_same", 2, numbers=4, long=LONG_MARKERS)
_covers = _call("reqs_covers", 2, numbers=4, long=LONG_MARKERS)
_conflicts = _call("reqs_conflicts", 1, numbers=3, long=LONG_MARKERS)
_normal = _call("reqs_normal", 1, numbers=2, long=LONG_MARKERS)
_assumption = _call_if_there("reqs_assumption", 2, numbers=1, long=LONG_TEXTS)
_same_where = _call_if_there("reqs_same_where", 3, numbers=4, long=LONG_MARKERS)
_covers_where = _call_if_there("reqs_covers_where", 3, numbers=4, long=LONG_MARKERS)
_conflicts_where = _call_if_there("reqs_conflicts_where", 2, numbers=3, long=LONG_MARKERS)


def lines_of(answer: str) -> List[str]:
    """The lines of an answer. Only a line feed ends one: str.splitlines splits at more characters, which may
    be within a text."""
    lines = answer.split("\n")
    return lines if lines[-1] else lines[:-1]


def _size_for(*texts: bytes) -> int:
    """A buffer size that is enough for most answers about lists."""
    return ROOM + 2 * sum(map(len, texts))


def long_version_key(text: bytes) -> Optional[bytes]:
    """A version's key, which may be too long for a buffer, or None if the text is not a version. `Version`
    reads other keys itself."""
    buffer = new_buffer()
    length = version_key_call(text, len(text), buffer, ROOM)
    if length > ROOM:
        buffer = ctypes.create_string_buffer(length)
        length = version_key_call(text, len(text), buffer, length)
    if length == KEY_REFUSED:
        return None
    if length < 0:
        raise MemoryError("libreqs")
    return bytes(buffer[:length])


def version(text: bytes) -> str:
    """A version's normal text."""
    return _version(text).decode()


def specifiers(text: bytes) -> List[str]:
    """The texts of a list's members."""
    return lines_of(_specifiers(text).decode())


def take_one(specifiers: bytes, version: bytes) -> bytes:
    """`1` if the list accepts the version, `0` if it doesn't, `?` if that is not a version."""
    return _take_one(specifiers, version + b"\n")


def take(specifiers: bytes, versions: bytes) -> bytes:
    """For each line of `versions` `1` if the list accepts the version, `0` if it doesn't, `?` if the line is
    not a version."""
    return _take(specifiers, versions, size=len(versions))


def disjoint(left: bytes, right: bytes) -> bool:
    """Whether the ranges of both lists are disjoint: no point is in both."""
    return _specifiers_disjoint(left, right) == b"1"


def subset(left: bytes, right: bytes) -> bool:
    """Whether the left list's range is a subset of the right one's: each of its points is in that."""
    return _specifiers_subset(left, right) == b"1"


def empty(specifiers: bytes) -> bool:
    """Whether the list's range is empty: no point is in it."""
    return _specifiers_empty(specifiers) == b"1"


class RequirementParts(NamedTuple):
    """A requirement's parts: normal names, extras and specifiers with commas between them, and the URL; empty
    if there are none. The marker is all that follows the `;` in the given text, or None if nothing does."""

    name: str
    extras: str
    specifiers: str
    url: str
    marker: Optional[str]


def requirement(text: bytes) -> RequirementParts:
    """A requirement's parts."""
    name, extras, specifiers, url, place = _requirement(text).decode().split("\n", 4)
    return RequirementParts(name, extras, specifiers, url, _standing_at(text, place))


def _standing_at(text: bytes, place: str) -> Optional[str]:
    """The part of a text at a place, which is its first byte and the number of its bytes; None without a
    place."""
    if not place:
        return None
    start, length = map(int, place.split(" "))
    return text[start : start + length].decode()


# Calls on markers are given how many nodes they may make, and those that write a marker how many clauses: they raise
# `TooManyNodes` and `TooManyClauses`.


def marker_check(text: bytes) -> None:
    """Raises `Fault` if a text is not a marker."""
    _marker_check(text)


def marker(text: bytes, nodes: int, clauses: int) -> str:
    """A marker's normal text, which is empty if it always holds. Raises `Fault` if it has none."""
    return _marker(text, numbers=(nodes, clauses)).decode()


def marker_key(text: bytes, nodes: int) -> bytes:
    """A marker's key, which markers with the same meaning have in common."""
    return _marker_key(text, numbers=(nodes,))


def marker_truth(text: bytes, nodes: int) -> bytes:
    """`1` if the marker always holds, `0` if it never does, and otherwise `-`."""
    return _marker_truth(text, numbers=(nodes,))


def markers_disjoint(left: bytes, right: bytes, nodes: int) -> bool:
    """Whether the two markers never hold together."""
    return _markers_disjoint(left, right, numbers=(nodes,)) == b"1"


def marker_implies(left: bytes, right: bytes, nodes: int) -> bool:
    """Whether the right marker holds wherever the left one does."""
    return _marker_implies(left, right, numbers=(nodes,)) == b"1"


def marker_negated(text: bytes, nodes: int, clauses: int) -> str:
    """The normal text of the marker's negation, which holds where the marker doesn't."""
    return _marker_negated(text, numbers=(nodes, clauses)).decode()


def marker_simplify_python(text: bytes, lower: bytes, upper: bytes, nodes: int, clauses: int) -> str:
    """The normal text of a marker, simplified for a `python_full_version` that is at least `lower` and below
    `upper`; an empty text is no bound."""
    return _marker_simplify_python(text, lower, upper, numbers=(nodes, clauses)).decode()


def marker_simplify_extras(text: bytes, extras: bytes, nodes: int, clauses: int) -> str:
    """The normal text of a marker, simplified for the presence of the extras, one per line."""
    return _marker_simplify_extras(text, extras, numbers=(nodes, clauses)).decode()


def markers_hold(markers: bytes, environment: bytes, extras: bytes) -> bytes:
    """For each line of `markers` `1` if it holds, `0` if it doesn't, `?` if the line is not a marker."""
    return _markers_hold(markers, environment, extras, size=len(markers))


def check(requirements: bytes, environment: bytes, candidates: bytes, extras: bytes) -> str:
    """What `reqs check` prints."""
    size = _size_for(requirements)
    return _check(requirements, environment, candidates, extras, size=size).decode()


# Calls on lists are given how many cases a package may have, how many nodes and clauses they may make, and how many cases all
# packages may have together, each but for what it doesn't make: they raise `TooManyNodes` and `TooManyClauses`.


def matrix(
    requirements: bytes, environments: bytes, candidates: bytes, extras: bytes, limit: int, nodes: int, cases: int
) -> str:
    """What `reqs matrix` prints."""
    # (each environment has this member, and a row is seldom longer than the line that asks for it)
    size = ROOM + min(len(requirements) * environments.count(b'"sys_platform"'), MOST_ROOM)
    numbers = limit, nodes, cases
    return _matrix(requirements, environments, candidates, extras, numbers=numbers, size=size).decode()


def same(left: bytes, right: bytes, limit: int, nodes: int, clauses: int, cases: int) -> str:
    """What `reqs same` prints."""
    return _same(left, right, numbers=(limit, nodes, clauses, cases)).decode()


def covers(lock: bytes, requirements: bytes, limit: int, nodes: int, clauses: int, cases: int) -> str:
    """What `reqs covers` prints."""
    return _covers(lock, requirements, numbers=(limit, nodes, clauses, cases), size=_size_for(requirements)).decode()


def conflicts(requirements: bytes, limit: int, nodes: int, cases: int) -> str:
    """What `reqs conflicts` prints."""
    return _conflicts(requirements, numbers=(limit, nodes, cases), size=_size_for(requirements)).decode()


def normal(requirements: bytes, nodes: int, clauses: int) -> str:
    """What `reqs normal` prints."""
    return _normal(requirements, numbers=(nodes, clauses), size=_size_for(requirements)).decode()


def assumption(marker: bytes, python: bytes, real: bool) -> str:
    """The text of the marker of what is assumed, empty if nothing is."""
    return _assumption(marker, python, numbers=(int(real),), size=_size_for(marker, python)).decode()


# These answer only where the marker `assumption` holds.


def same_where(
    left: bytes, right: bytes, assumption: bytes, limit: int, nodes: int, clauses: int, cases: int
) -> str:
    """What `reqs same --assume` prints."""
    return _same_where(left, right, assumption, numbers=(limit, nodes, clauses, cases)).decode()


def covers_where(
    lock: bytes, requirements: bytes, assumption: bytes, limit: int, nodes: int, clauses: int, cases: int
) -> str:
    """What `reqs covers --assume` prints."""
    numbers = limit, nodes, clauses, cases
    return _covers_where(lock, requirements, assumption, numbers=numbers, size=_size_for(requirements)).decode()


def conflicts_where(requirements: bytes, assumption: bytes, limit: int, nodes: int, cases: int) -> str:
    """What `reqs conflicts --assume` prints."""
    return _conflicts_where(requirements, assumption, numbers=(limit, nodes, cases), size=_size_for(requirements)).decode()
