"""Reads a file of parts, of which one is held at a time."""

import sys
from collections.abc import Callable, Iterator
from pathlib import Path
from typing import BinaryIO

from rules.no_answer import NoAnswer
from rules.parts.files.documents import items_of_document, items_of_lines
from rules.parts.files.items import BadItem, Item
from rules.parts.files.table import items_of_table
from rules.parts.options import STANDARD_INPUT

READERS: dict[str, Callable[[BinaryIO], Iterator[Item | BadItem]]] = {
    ".csv": items_of_table,
    ".tsv": items_of_table,
    ".json": items_of_document,
    ".jsonl": items_of_lines,
    ".ndjson": items_of_lines,
}


def read_items(name: str) -> Iterator[Item | BadItem]:
    """The parts in turn, and what can't be read; - is JSON lines from standard input."""
    if name == STANDARD_INPUT:
        yield from items_of_lines(sys.stdin.buffer if sys.stdin else [])
        return
    reader = READERS.get(Path(name).suffix.lower())
    if reader is None:
        kinds = ", ".join(READERS)
        raise NoAnswer(f"{name}: parts are read from a file {kinds}, or from - (JSON lines)")
    try:
        with open(name, "rb") as file:
            yield from reader(file)
    except OSError as error:
        raise NoAnswer(f"{name} can't be read: {error.strerror}") from None
