"""The progress of long work, on a terminal's standard error."""

import os
import sys
import threading
import time
from contextlib import suppress
from typing import Optional, TextIO

from .errors import shown

__all__ = ["Progress", "is_terminal"]

# For how many seconds nothing is shown, and how often it is shown then.
FIRST, EVERY = 1.0, 0.2
# What puts a terminal back to the front of its line, and empties that.
_EMPTY = "\r\x1b[K"


class Progress:
    """Shows what is done, and for how long it has been, while a block runs, and takes that away at its end.
    It shows nothing in the first second, where standard error is no terminal, or where `is_wanted` isn't set,
    as the command line does.

    `count` is how many steps there are, where that is known. It is another thread that shows it, so that a
    long call of the library is seen too.

    >>> with Progress("reading", 3) as progress:
    ...     for _ in range(3):
    ...         progress.step()
    >>> progress.line(12)
    'reading: 3 of 3, 12 s'
    """

    is_wanted = False

    def __init__(self, what: str, count: int = 0) -> None:
        self._what, self._count, self._done = what, count, 0
        self._ended = threading.Event()
        self._thread: Optional[threading.Thread] = None

    def step(self) -> None:
        """One more step is done."""
        self._done += 1

    def line(self, seconds: float) -> str:
        """What is shown after `seconds`."""
        of_steps = f"{self._done} of {self._count}, " if self._count else ""
        return f"{shown(self._what)}: {of_steps}{seconds:.0f} s"

    def __enter__(self) -> "Progress":
        if self.is_wanted and is_terminal(sys.stderr):
            thread = threading.Thread(target=self._show, args=(sys.stderr, time.monotonic()), daemon=True)
            with suppress(RuntimeError):  # there may be no more threads
                thread.start()
                self._thread = thread
        return self

    def __exit__(self, *_: object) -> None:
        self._ended.set()
        if self._thread is not None:
            self._thread.join()

    def _show(self, terminal: TextIO, begun: float) -> None:
        """Shows it again and again until the block has ended."""
        try:
            if self._ended.wait(FIRST):
                return
            while not self._ended.wait(EVERY):
                line = f"fowlyore: {self.line(time.monotonic() - begun)}"
                terminal.write(_EMPTY + line[: _width() - 1])
                terminal.flush()
            terminal.write(_EMPTY)
            terminal.flush()
        except (OSError, ValueError):  # the terminal is gone
            return


def is_terminal(stream: Optional[TextIO]) -> bool:
    """Whether a standard stream is a terminal, where escapes are understood."""
    return stream is not None and stream.isatty() and os.environ.get("TERM", "dumb") != "dumb"


def _width() -> int:
    """How many columns the terminal of standard error has."""
    try:
        return os.get_terminal_size(sys.stderr.fileno()).columns or 80
    except (AttributeError, OSError, ValueError):
        return 80
