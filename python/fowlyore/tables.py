"""Answers for people: tables for a terminal, and pages of HTML that load nothing else. What they show are the
rows of `matrix` and `check`, and the sentences of `explain`."""

import html
import textwrap
from collections import Counter
from dataclasses import dataclass
from typing import Any, Dict, Iterable, Iterator, List, Mapping, Optional, Sequence, Tuple

from .explanations import Explanation
from .lists import Row

__all__ = ["Grid", "check_page", "check_table", "matrix_page", "matrix_table"]

# Values by which environments are told apart, those that say most to a reader first.
_FIRST = (
    "python_full_version", "python_version", "implementation_name", "sys_platform", "platform_machine", "os_name",
)  # fmt: skip
ABSENT = "-"
_BOLD, _RED, _YELLOW, _PLAIN = "\x1b[1m", "\x1b[31m", "\x1b[33m", "\x1b[0m"
_GAP = 2
_STYLE = """
body { font: 15px/1.4 system-ui, sans-serif; margin: 2em; color: #222; background: #fff }
table { border-collapse: collapse; margin: 1em 0 }
th, td { padding: .25em .7em; border: 1px solid #ccc; text-align: left; vertical-align: top; white-space: nowrap }
thead th, tbody th { background: #f3f3f3; position: sticky; left: 0 }
td.differs { background: #fff3c4 } td.none { color: #b00020; font-weight: bold } td.absent { color: #777 }
ul { margin: 0; padding-left: 1.2em } td.why { white-space: normal }
"""


@dataclass(frozen=True)
class Grid:
    """The rows of `matrix` by package and environment: `cells` has for each of `names` what stands in each
    column, and `usual` which of these most columns have. `columns` tell the environments apart."""

    names: Tuple[str, ...]
    cells: Tuple[Tuple[str, ...], ...]
    usual: Tuple[str, ...]
    columns: Tuple[str, ...]

    @classmethod
    def of(cls, answers: Sequence[Sequence[Row]], environments: Sequence[Mapping[str, Any]]) -> "Grid":
        """The grid of what `matrix` answers for some environments.

        >>> rows = [[Row("foo", (), "1")], [Row("bar", (), "none"), Row("foo", (), "1")]]
        >>> Grid.of(rows, [{"os_name": "nt"}, {"os_name": "posix"}])
        Grid(names=('bar', 'foo'), cells=(('-', 'none'), ('1', '1')), usual=('-', '1'), columns=('os_name nt', 'os_name posix'))
        """
        found = [{it.name: it for it in rows} for rows in answers]
        each = [_line(name, [it.get(name) for it in found]) for name in sorted({name for it in found for name in it})]
        return cls(
            tuple(name for name, _ in each), tuple(cells for _, cells in each), tuple(_usual(cells) for _, cells in each),
            tuple(_told_apart(environments)),
        )  # fmt: skip


def _line(name: str, rows: Sequence[Optional[Row]]) -> Tuple[str, Tuple[str, ...]]:
    """A package with what its cells are. Extras that are the same in all of its rows stand next to
    the name."""
    extras = {it.extras for it in rows if it is not None}
    if len(extras) == 1:
        common = ",".join(next(iter(extras)))
        return f"{name}[{common}]" if common else name, tuple(ABSENT if it is None else it.outcome for it in rows)
    return name, tuple(ABSENT if it is None else str(it)[len(name) :].strip() for it in rows)


def _usual(cells: Sequence[str]) -> str:
    """What most cells have; of several the first."""
    return Counter(cells).most_common(1)[0][0]


def _told_apart(environments: Sequence[Mapping[str, Any]]) -> List[str]:
    """The values of each environment that tell it from the others, and of values that tell the same the
    first."""
    keys = [*_FIRST, *sorted({key for it in environments for key in it} - set(_FIRST))]
    chosen: List[str] = []
    # (of each environment the number of those that the chosen values don't tell it from)
    groups, count = [0] * len(environments), 1
    for key in keys:
        numbers: Dict[Tuple[int, str], int] = {}
        split = [numbers.setdefault((group, str(it.get(key))), len(numbers)) for group, it in zip(groups, environments)]
        if len(numbers) > count:
            chosen.append(key)
            groups, count = split, len(numbers)
    return [", ".join(f"{key} {_printable(str(it.get(key)))}" for key in chosen) for it in environments]


def _printable(text: str) -> str:
    """A text without what a terminal would take for more than characters."""
    return "".join(it if it.isprintable() else "?" for it in text)


def matrix_table(grid: Grid, width: Optional[int] = None, is_coloured: bool = False) -> Iterator[str]:
    """The lines of a table, of packages by environments. A `*` follows what differs from what most
    columns have. Where a width is given, columns that don't fit stand in further tables below.

    >>> rows = [[Row("foo", (), "1")], [Row("foo", (), "1")], [Row("foo", (), "none")]]
    >>> print(*matrix_table(Grid.of(rows, [{"os_name": "a"}, {"os_name": "b"}, {"os_name": "c"}])), sep="\\n")
    package  1  2  3
    foo      1  1  none*
    <BLANKLINE>
    1: os_name a
    2: os_name b
    3: os_name c
    * is not what most environments have
    """
    marked = [[f"{it}*" if it != usual else it for it in cells] for cells, usual in zip(grid.cells, grid.usual)]
    sizes = [max(map(len, (str(at + 1), *(it[at] for it in marked)))) for at in range(len(grid.columns))]
    first = max(map(len, ("package", *grid.names)))
    for block in _blocks(sizes, first, width):
        heads = [str(at + 1) for at in block]
        yield _joined(["package", *heads], [first, *(sizes[at] for at in block)], _BOLD if is_coloured else "")
        for name, cells in zip(grid.names, marked):
            yield _cells_joined(name.ljust(first), [(cells[at], sizes[at]) for at in block], is_coloured)
        yield ""
    for number, it in enumerate(grid.columns, 1):
        yield f"{number}: {it}" if it else f"{number}"
    if any(it.endswith("*") for cells in marked for it in cells):
        yield "* is not what most environments have"


def _blocks(sizes: Sequence[int], first: int, width: Optional[int]) -> Iterator[List[int]]:
    """The columns, by their indices, that stand side by side; at least one each time."""
    block: List[int] = []
    used = first
    for at, size in enumerate(sizes):
        if block and width is not None and used + _GAP + size > width:
            yield block
            block, used = [], first
        block.append(at)
        used += _GAP + size
    if block:
        yield block


def _joined(words: Sequence[str], sizes: Sequence[int], colour: str) -> str:
    line = (" " * _GAP).join(it.ljust(size) for it, size in zip(words, sizes)).rstrip()
    return f"{colour}{line}{_PLAIN}" if colour else line


def _cells_joined(name: str, cells: Sequence[Tuple[str, int]], is_coloured: bool) -> str:
    """A line of the table. Blanks have no colour."""
    line = name
    for text, size in cells:
        shown = f"{_colour_of(text)}{text}{_PLAIN}" if is_coloured and _colour_of(text) else text
        line += " " * _GAP + shown + " " * (size - len(text))
    return line.rstrip()


def _colour_of(cell: str) -> str:
    """The colour of a cell: one for `none`, whatever its extras are, and one for what differs."""
    if cell.rstrip("*").split(" ")[-1] == "none":
        return _RED
    return _YELLOW if cell.endswith("*") else ""


def matrix_page(grid: Grid, title: str) -> str:
    """A table as a page of HTML, with what differs from what most columns have on another ground."""
    heads = "".join(
        f'<th title="{html.escape(it)}">{number}{_lines_of(it)}</th>' for number, it in enumerate(grid.columns, 1)
    )
    rows = [
        f"<tr><th>{html.escape(name)}</th>{''.join(_cell(it, usual) for it in cells)}</tr>"
        for name, cells, usual in zip(grid.names, grid.cells, grid.usual)
    ]
    return _page(title, [f"<thead><tr><th>package</th>{heads}</tr></thead>", "<tbody>", *rows, "</tbody>"])


def _lines_of(column: str) -> str:
    return "".join(f"<br><small>{html.escape(it)}</small>" for it in column.split(", ") if it)


def _cell(text: str, usual: str) -> str:
    classes = ["differs"] if text != usual else []
    if text.split(" ")[-1] in ("none", ABSENT):
        classes.append("none" if text != ABSENT else "absent")
    of_class = f' class="{" ".join(classes)}"' if classes else ""
    return f"<td{of_class}>{html.escape(text)}</td>"


def _page(title: str, table: Iterable[str]) -> str:
    """A page with a table and a title. It may load nothing, and run nothing."""
    shown = html.escape(title)
    policy = "default-src 'none'; style-src 'unsafe-inline'"
    return "\n".join([
        "<!DOCTYPE html>", '<html lang="en">', '<head><meta charset="utf-8">',
        f'<meta http-equiv="Content-Security-Policy" content="{policy}">',
        f"<title>{shown}</title><style>{_STYLE}</style></head>", f"<body><h1>{shown}</h1>", "<table>", *table, "</table>",
        "</body></html>",
    ])  # fmt: skip


def check_table(
    rows: Sequence[Row], explanations: Sequence[Explanation] = (), width: Optional[int] = None, is_coloured: bool = False
) -> Iterator[str]:
    """The lines of a table of `check`: a package, what becomes of it, and below each `none` why.

    >>> print(*check_table([Row("foo", ("x",), "1.5"), Row("longer", (), "none")]), sep="\\n")
    package  version
    foo[x]   1.5
    longer   none
    """
    labels = [str(it)[: -len(it.outcome) - 1] for it in rows]
    first = max(map(len, ("package", *labels)))
    why = {it.name: it.sentences for it in explanations}
    yield _joined(["package", "version"], [first, 0], _BOLD if is_coloured else "")
    for row, label in zip(rows, labels):
        yield _cells_joined(label.ljust(first), [(row.outcome, 0)], is_coloured)
        for sentence in why.get(row.name, ()):
            yield from _wrapped(_printable(sentence), width)


def _wrapped(sentence: str, width: Optional[int]) -> List[str]:
    """A sentence below a row, on lines that a terminal has room for."""
    if width is None:
        return [f"    {sentence}"]
    how: Dict[str, Any] = {"initial_indent": "    ", "subsequent_indent": "      ", "break_on_hyphens": False}
    return _Wrapper(max(20, width), **how).wrap(sentence)


class _Wrapper(textwrap.TextWrapper):
    """One that breaks a long word at once. The one that it is of does so line by line, each time with a copy of what is left."""

    def _handle_long_word(self, reversed_chunks: List[str], cur_line: List[str], cur_len: int, width: int) -> None:
        word, at, room = reversed_chunks.pop(), max(1, width - cur_len), self.width - len(self.subsequent_indent)
        cur_line.append(word[:at])
        reversed_chunks += reversed([word[begin : begin + room] for begin in range(at, len(word), room)])


def check_page(rows: Sequence[Row], explanations: Sequence[Explanation], title: str) -> str:
    """The rows of `check` as a page of HTML, with why each is `none`."""
    why = {it.name: it.sentences for it in explanations}
    shown = []
    for row in rows:
        reasons = "".join(f"<li>{html.escape(it)}</li>" for it in why.get(row.name, ()))
        label = html.escape(str(row)[: -len(row.outcome) - 1])
        cell = _cell(row.outcome, row.outcome)
        shown.append(f"<tr><th>{label}</th>{cell}<td class=\"why\">{f'<ul>{reasons}</ul>' if reasons else ''}</td></tr>")
    head = "<thead><tr><th>package</th><th>version</th><th>why</th></tr></thead>"
    return _page(title, [head, "<tbody>", *shown, "</tbody>"])
