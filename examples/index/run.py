#!/usr/bin/env python3
"""Answers a requirement list that `split.py` has split, for many environments:
what `reqs check` prints for each of them goes to `OUT/env-1.txt`, `env-2.txt`
and so on.

Pieces are answered one by one in this process; or, with --workers, side by side
in so many processes on this machine, of Dask's distributed scheduler where this
interpreter has it, and else of `concurrent.futures`; or, with --scheduler, by
the workers of a scheduler of Dask that runs already. All of these have to see
PIECES, ENVIRONMENTS and OUT under the same paths, and to have `fowlyore`. No
piece is tried twice: a worker that is lost ends the run.

OUT must not be there; it is once all is answered. The status is 0; 2 where an
input is refused, for the reason that `reqs check` has for the whole lists, with
the line's number there; 3 where a file can't be read or written, memory ran out
or a worker was lost. Then there is no OUT.
"""

import argparse
import contextlib
import functools
import json
import logging
import os
import re
import shutil
import sys
import tempfile
import time
from pathlib import Path
from typing import Any, Callable, Dict, Iterable, Iterator, List, Optional, Tuple

NAME, GREATEST_LIMIT = "run.py", 1_000_000

# Why a piece is refused: the first of all is the least. The number of what is at fault, in the order in which that is looked
# at; the line in the whole list; the message.
Refusal = Tuple[int, int, str]
# A piece; how many bytes its answer has for each environment; why there is none.
Result = Tuple[int, List[int], Optional[Refusal]]
Work = Callable[[int], Result]
# Does the work for each of some pieces, in any order.
Engine = Callable[[Work, List[int]], Iterable[Result]]


class Failed(Exception):
    """Why there is no answer, and the exit status."""

    def __init__(self, message: str, status: int) -> None:
        super().__init__(message)
        self.status = status


def answer(pieces: str, environments: str, extras: List[str], limit: int, out: str, piece: int) -> Result:
    """Writes the answer of a piece into the folder, for one environment after another. This is what a worker does."""
    from fowlyore import InvalidInput, matrix_texts

    requirements, candidates = (Path(pieces, f"{piece}.{it}") for it in ("requirements", "candidates"))
    try:
        texts = matrix_texts(requirements, Path(environments), candidates, extras, limit)
    except InvalidInput as error:
        return piece, [], refusal(error)
    with open(os.path.join(out, f"{piece}.answer"), "wb") as file:
        return piece, [file.write(it.encode()) for it in texts], None


def refusal(error: Any) -> Refusal:
    """The refusal of a piece, by the line of the whole list."""
    order = ("extras", "requirements", "environments", "candidates", "cases")
    message = error.message
    if error.input not in ("requirements", "candidates"):
        return order.index(error.input), 0, message
    if error.line is None:  # a package has too many cases
        return order.index("cases"), 0, message
    with open(f"{error.path}.lines", "rb") as numbers:
        numbers.seek(8 * (error.line - 1))
        line = int.from_bytes(numbers.read(8), "little")
    return order.index(error.input), line, re.sub(r"(?<=: line )\d+", str(line), message, count=1)


def alone(work: Work, pieces: List[int]) -> Iterator[Result]:
    return map(work, pieces)


def by_processes(workers: int, work: Work, pieces: List[int]) -> Iterator[Result]:
    import multiprocessing
    from concurrent.futures import ProcessPoolExecutor, as_completed

    # (the pool has threads, and Python warns of forks of a process with threads)
    with ProcessPoolExecutor(workers, mp_context=multiprocessing.get_context("spawn")) as pool:
        try:
            for it in as_completed([pool.submit(work, piece) for piece in pieces]):
                yield it.result()
        finally:
            pool.shutdown(cancel_futures=True)


def by_dask(workers: int, scheduler: Optional[str], work: Work, pieces: List[int]) -> Iterator[Result]:
    """By the scheduler at an address, or by one of its own that listens on 127.0.0.1 alone."""
    import dask
    from distributed import Client, LocalCluster, as_completed

    # (the nanny would have its workers give back memory at once, which costs a fifth of their time)
    dask.config.set({"distributed.scheduler.allowed-failures": 0, "distributed.nanny.pre-spawn-environ": {}})
    own: Dict[str, Any] = {"host": "127.0.0.1"}
    own.update(dashboard_address="127.0.0.1:0", worker_dashboard_address="127.0.0.1:0")
    own.update(n_workers=workers, threads_per_worker=1, memory_limit=None, silence_logs=logging.CRITICAL)
    with contextlib.ExitStack() as stack:
        if not scheduler:
            cluster = stack.enter_context(LocalCluster(**own))
        client = stack.enter_context(Client(scheduler or cluster))
        for _, result in as_completed(client.map(work, pieces, pure=False), with_results=True):
            yield result


def answered(work: Work, pieces: List[int], engine: Engine) -> Dict[int, List[int]]:
    """How many bytes the answer of each piece has for each environment, once all are answered."""
    began, found, refused = time.monotonic(), {}, []
    place = {it: at for at, it in enumerate(pieces)}
    tenth = max(1, len(pieces) // 10)
    for count, (piece, sizes, why) in enumerate(engine(work, pieces), 1):
        found[piece] = sizes
        if why:
            refused.append((why[0], why[1], place[piece], why[2]))
        if count % tenth == 0 or count == len(pieces):
            print(f"{NAME}: {count} of {len(pieces)} pieces, {time.monotonic() - began:.1f} s", file=sys.stderr, flush=True)
    if refused:
        raise Failed(min(refused)[3], 2)
    if len(found) < len(pieces) or len({len(it) for it in found.values()}) != 1:
        raise Failed("not all pieces were answered for the same environments", 3)
    return found


def merge(folder: str, pieces: List[int], sizes: Dict[int, List[int]]) -> None:
    """Makes the file of each environment of the pieces' answers, which follow one another by name."""
    paths = {it: os.path.join(folder, f"{it}.answer") for it in pieces}
    begins = dict.fromkeys(pieces, 0)
    for number in range(len(sizes[pieces[0]])):
        with open(os.path.join(folder, f"env-{number + 1}.txt"), "wb") as whole:
            for piece in pieces:
                size = sizes[piece][number]
                with open(paths[piece], "rb") as part:
                    part.seek(begins[piece])
                    if whole.write(part.read(size)) != size:
                        raise Failed(f"{paths[piece]} is too short", 3)
                begins[piece] += size
    for path in paths.values():
        os.remove(path)


def run(folder: str, environments: str, extras: List[str], limit: int, out: str, engine: Engine) -> None:
    """Has an engine answer the pieces of a folder. The folder OUT is there once all are answered."""
    if os.path.lexists(out):
        raise Failed(f"{out} is there already", 2)
    with open(os.path.join(folder, "index.json"), encoding="utf-8") as file:
        pieces = [it["piece"] for it in json.load(file)]
    place, name = os.path.split(os.path.abspath(out))
    beside = tempfile.mkdtemp(prefix=f"{name}.", dir=place)
    work = functools.partial(answer, os.path.abspath(folder), os.path.abspath(environments), extras, limit, beside)
    try:
        merge(beside, pieces, answered(work, pieces, engine))
        os.chmod(beside, 0o755)
        os.rename(beside, out)
    finally:
        shutil.rmtree(beside, ignore_errors=True)


def has_dask() -> bool:
    try:
        import distributed  # noqa: F401
    except ImportError:
        return False
    return True


def engine_of(words: argparse.Namespace) -> Engine:
    if words.scheduler and not has_dask():
        raise Failed("--scheduler wants the package distributed of Dask, which isn't installed", 2)
    if words.scheduler or words.workers and not words.without_dask and has_dask():
        return functools.partial(by_dask, words.workers, words.scheduler)
    return functools.partial(by_processes, words.workers) if words.workers else alone


def number(word: str) -> int:
    if not re.fullmatch(r"\+?[0-9]+", word):
        raise argparse.ArgumentTypeError(f"{word} is no number")
    return int(word)


def limit_of(word: str) -> int:
    """A limit as `reqs matrix` takes it."""
    if number(word) > GREATEST_LIMIT:
        raise argparse.ArgumentTypeError(f"{word} is above {GREATEST_LIMIT}")
    return number(word)


def words_of() -> argparse.Namespace:
    how = argparse.RawDescriptionHelpFormatter
    words = argparse.ArgumentParser(prog=NAME, description=__doc__, formatter_class=how)
    words.add_argument("pieces", metavar="PIECES", help="the folder that split.py made")
    words.add_argument("environments", metavar="ENVIRONMENTS", help="a JSON list of environments")
    words.add_argument("out", metavar="OUT", help="the folder of the answers")
    by = words.add_mutually_exclusive_group()
    by.add_argument("--workers", type=number, default=0, metavar="N", help="so many processes on this machine")
    by.add_argument("--scheduler", metavar="ADDRESS", help="a scheduler of Dask, as tcp://10.0.0.1:8786")
    words.add_argument("--without-dask", action="store_true", help="processes of concurrent.futures in any case")
    of_extra, of_limit = "an extra that is requested; may be repeated", "how many cases a package may have (%(default)s)"
    words.add_argument("--extra", action="append", default=[], metavar="NAME", help=of_extra)
    words.add_argument("--limit", type=limit_of, default=4096, metavar="N", help=of_limit)
    return words.parse_args()


def main() -> int:
    words = words_of()
    try:
        run(words.pieces, words.environments, words.extra, words.limit, words.out, engine_of(words))
    except Failed as error:
        print(f"{NAME}: {error}", file=sys.stderr)
        return error.status
    except OSError as error:
        print(f"{NAME}: {error.filename}: {error.strerror}" if error.filename else f"{NAME}: {error}", file=sys.stderr)
        return 3
    except Exception as error:  # whatever an engine says of a worker
        print(f"{NAME}: {type(error).__name__}: {error}", file=sys.stderr)
        return 3
    return 0


if __name__ == "__main__":
    sys.exit(main())
