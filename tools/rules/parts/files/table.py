"""Parts from a table: a line of headings, then a part a row."""

import csv
import re
from collections.abc import Iterable, Iterator
from itertools import chain

from rules.parts.files.items import BadItem, Item, Number, item_of

SEPARATORS = ",;\t"
QUOTED = re.compile(r'"[^"]*"')
NUMBER = re.compile(r"-?(0|[1-9][0-9]*)(\.[0-9]+)?")
WORDS = {"true": True, "false": False, "null": None}


def items_of_table(lines: Iterable[bytes]) -> Iterator[Item | BadItem]:
    """What makes no table ends it."""
    table = Table(lines)
    try:
        yield from table.items()
    except UnicodeDecodeError:
        yield BadItem(table.read, "parts are UTF-8, this line is not")
    except csv.Error as error:
        yield BadItem(table.first, f"no table: {error}")


class Table:
    """`read` lines are read; the row that is read began at the line `first`."""

    def __init__(self, lines: Iterable[bytes]) -> None:
        self.lines = lines
        self.read = 0
        self.first = 1

    def text(self) -> Iterator[str]:
        for line in self.lines:
            self.read += 1
            yield line.decode("utf-8-sig" if self.read == 1 else "utf-8")

    def rows(self) -> Iterator[list[str]]:
        """Rows with a cell that isn't empty."""
        text = self.text()
        head = next(text, "")
        dialect = {"delimiter": separator_of(head), "skipinitialspace": True, "strict": True}
        for row in csv.reader(chain([head], text), **dialect):
            cells = [cell.strip() for cell in row]
            if any(cells):
                yield cells
            self.first = self.read + 1

    def items(self) -> Iterator[Item | BadItem]:
        rows = self.rows()
        headings = next(rows, [])
        check_headings(headings)
        for number, cells in enumerate(rows, 1):
            item = item_of(self.first, number, fields_of(headings, cells))
            wrong = nameless_cell(headings, cells)
            yield BadItem(item.line, wrong, item.title()) if wrong else item


def separator_of(head: str) -> str:
    """The one that the headings have most of, outside of quotes."""
    bare = QUOTED.sub("", head)
    return max(SEPARATORS, key=bare.count)


def check_headings(headings: list[str]) -> None:
    for place, heading in enumerate(headings):
        if heading and heading in headings[:place]:
            raise csv.Error(f"the heading `{heading}` stands twice")


def nameless_cell(headings: list[str], cells: list[str]) -> str:
    """Why a cell has no heading, if one has none."""
    named = {place for place, heading in enumerate(headings) if heading}
    nameless = (cell for place, cell in enumerate(cells) if cell and place not in named)
    return next((f"the cell `{cell}` has no heading" for cell in nameless), "")


def fields_of(headings: list[str], cells: list[str]) -> dict[str, object]:
    """An empty cell is no field."""
    return {heading: value_of(cell) for heading, cell in zip(headings, cells) if heading and cell}


def value_of(cell: str) -> object:
    if cell in WORDS:
        return WORDS[cell]
    return Number(cell) if NUMBER.fullmatch(cell) else cell
