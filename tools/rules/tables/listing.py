"""Reads a planner's answer: a plan or a refusal, from its words or from plansheet's listing."""

import re
from collections.abc import Iterable, Sequence
from dataclasses import dataclass
from enum import IntEnum
from typing import NamedTuple

from rules.no_answer import NoAnswer

COLUMN = 6
HEAD_COLUMNS = 4
ENTRY_COLUMNS = 5
NUMBER = re.compile(rb" *[0-9]+")


class ListingError(NoAnswer):
    """An answer that document 01 doesn't know."""


class EntryKind(IntEnum):
    BIND = 1
    IGNORE = 2
    COMPARE_EXPRESSION = 3
    COMPARE_LITERAL = 4
    ARRAY = 5
    OBJECT = 6
    PAIR = 7


class Entry(NamedTuple):
    """A plan entry: where it was written under its parent, or 0; how many entries are above it."""

    kind: EntryKind
    node: int
    children: int
    key: int
    position: int
    depth: int


@dataclass(frozen=True)
class Plan:
    form: int
    side: int
    entries: list[Entry]


@dataclass(frozen=True)
class Refusal:
    number: int
    place: int
    counts: tuple[int, int]


@dataclass(frozen=True)
class RunRefusal(Refusal):
    """A refusal of a run; the place, and what stands there, are the tool's own reading."""

    what: str = ""


KINDS = {kind.value: kind for kind in EntryKind}


def read_listing(listing: bytes, nodes: int) -> Plan | Refusal:
    """The listing of a sheet with so many nodes."""
    lines = listing.split(b"\n")
    if len(lines) < 2 or lines.pop() != b"":
        raise ListingError("it has no line, or its last line has no end")
    head = read_line(lines[0], HEAD_COLUMNS)
    return read_answer(head, [read_line(line, ENTRY_COLUMNS) for line in lines[1:]], nodes)


def read_answer(
    head: Sequence[int], rows: Sequence[Sequence[int]], nodes: int
) -> Plan | Refusal:
    """The four words of an answer, and the rows of a plan's entries."""
    number, place, first, second = head
    if number == 0:
        if second != len(rows):
            raise ListingError(f"it announces {second} entries and has {len(rows)}")
        return Plan(place, first, read_entries(rows, nodes))
    if rows or place > nodes:
        raise ListingError("a refusal has one line, with the number of a node or 0")
    return Refusal(number, place, (first, second))


def read_line(line: bytes, count: int) -> list[int]:
    columns = [line[place : place + COLUMN] for place in range(0, count * COLUMN, COLUMN)]
    if len(line) != count * COLUMN or not all(map(NUMBER.fullmatch, columns)):
        raise ListingError(f"no {count} columns of six: {line.decode(errors='replace')!r}")
    return [int(column) for column in columns]


def read_entries(rows: Iterable[Sequence[int]], nodes: int) -> list[Entry]:
    entries: list[Entry] = []
    awaited: list[int] = []
    for row in rows:
        kind, node, children, key, position = row
        if kind not in KINDS or not 1 <= node <= nodes or key > nodes:
            raise ListingError(f"no entry of this rule: {list(row)}")
        while awaited and awaited[-1] == 0:
            awaited.pop()
        if (position > 0) != (len(awaited) > 0):
            raise ListingError(f"a position is for entries below others: {list(row)}")
        entries.append(Entry(KINDS[kind], node, children, key, position, len(awaited)))
        if awaited:
            awaited[-1] -= 1
        awaited.append(children)
    if any(awaited):
        raise ListingError("its last entries have fewer children than they say")
    return entries
