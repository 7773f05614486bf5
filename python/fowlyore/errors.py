"""The errors that are raised for texts that are refused."""

import re
import unicodedata
from typing import Optional, Tuple, Type, TypeVar

from . import _native

__all__ = ["Refused"]

Kind = TypeVar("Kind", bound="Refused")
# Control characters but line feeds, and what changes the direction of text (UAX #9).
HIDDEN = re.compile("[\x00-\x09\x0b-\x1f\x7f-\x9f\u061c\u200e\u200f\u202a-\u202e\u2066-\u2069]")


class Refused(ValueError):
    """A text was refused.

    `message` is the reason. If the place is known, `text` is the line at fault and `line` its number, from 1,
    and the part at fault is `text[start:end]`; otherwise they are None. As a text the error has a caret below
    that part.

    >>> error = Refused("no such operator", text="foo=1", line=1, start=3, end=4)
    >>> print(error)
    no such operator
        foo=1
           ^
    """

    def __init__(
        self,
        message: str = "",
        *,
        text: Optional[str] = None,
        line: Optional[int] = None,
        start: Optional[int] = None,
        end: Optional[int] = None,
    ) -> None:
        super().__init__(message)
        self.message = message
        self.text = text
        self.line = line
        self.start = start
        self.end = end

    def __str__(self) -> str:
        if self.text is None or self.start is None or self.end is None:
            return self.message
        # (a tab takes one column here, so that the caret stands below its part wherever tabs would lead)
        shown = self.text.rstrip().replace("\t", " ")
        if not shown.isprintable():
            return self.message
        blanks = " " * columns(self.text[: self.start])
        carets = "^" * max(1, columns(self.text[self.start : self.end]))
        return f"{self.message}\n    {shown}\n    {blanks}{carets}"


def shown(text: str) -> str:
    """A text of one or more lines in which what a terminal takes for more than a character is its number, as `\\u{1b}`."""
    return HIDDEN.sub(lambda it: f"\\u{{{ord(it[0]):x}}}", text)


def told(value: object) -> str:
    """How a refused value is shown: its `repr`, or its type where that fails, as for a number of too many digits or a value
    that nests too deep."""
    try:
        return repr(value)
    except Exception:
        return f"a value of the type {type(value).__name__} that has no text"


def columns(text: str) -> int:
    """The number of columns of a text in a terminal."""
    wide = sum(unicodedata.east_asian_width(it) in "WF" for it in text)
    return len(text) + wide - sum(map(bool, map(unicodedata.combining, text)))


def characters(line: bytes, start: int, length: int) -> Tuple[int, int]:
    """A part of a line, given in bytes, in characters: its start and its end."""
    front = len(line[:start].decode("utf-8", "replace"))
    return front, front + len(line[start : start + length].decode("utf-8", "replace"))


def on_one_line(kind: Type[Kind], text: str) -> None:
    """Refuses a text of more than one line: PEP 508 has no line feed, and the library's batches have lines.
    """
    if "\n" in text.strip():
        raise kind(f"{text!r} goes over more than one line", text=text)


def refusal(kind: Type[Kind], fault: _native.Fault, text: str, message: str) -> Kind:
    """The error for one invalid text. An empty part at the start of a non-empty text means that no place is
    known."""
    if text and fault.start == 0 and fault.length == 0:
        return kind(message, text=text, line=1)
    start, end = characters(_native.encoded(text), fault.start, fault.length)
    return kind(message, text=text, line=1, start=start, end=end)
