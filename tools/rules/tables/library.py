"""Plans and runs by the C calls over tables, in the library that tools/build_library makes."""

import ctypes
from array import array
from itertools import chain
from pathlib import Path
from typing import NamedTuple

from rules.no_answer import NoAnswer
from rules.tables.listing import (
    ENTRY_COLUMNS,
    HEAD_COLUMNS,
    Entry,
    ListingError,
    Plan,
    Refusal,
    read_answer,
    read_entries,
)
from rules.tables.sheet import Node, Sheet, range_of
from rules.text.rule_text import Kind

WORD = "I"
LONG = "Q"
BYTE = "B"
LENT = [ctypes.c_void_p, ctypes.c_size_t]
TABLES = 7
NO_MATCH = 100
BODY_COLUMNS = 5
SOMETIMES = 101
EXAMPLE = 0
NO_EXAMPLE = 100
# What is lent for an example: no value is larger.
NODE_WORDS = 5
MOST_NODES = 512
CARRIED_OUT = (0, NO_MATCH, SOMETIMES)
# A range that is empty has an address too.
NOTHING = array(LONG, [0])


class Ran(NamedTuple):
    """A run's answer, the plan that was carried out, and the values by name number afterwards."""

    answer: list[int]
    entries: list[Entry]
    values: list[int]


class FirstMiss(NamedTuple):
    """A run's number, and with no match the value's node, the pattern's, and why."""

    number: int
    node: int
    asked: int
    why: int


class BodyAnswer(NamedTuple):
    """The last line's plan, or a refusal, with its line from 1, or 0; the marks afterwards."""

    outcome: Plan | Refusal
    line: int
    marks: list[int]


class LentSide(NamedTuple):
    """A side of teluddru_common_example; marks and values by name number."""

    marks: list[int]
    scheduler: bool
    scoping: int
    pattern: int
    values: list[int]


class ExampleAnswer(NamedTuple):
    """The answer's words, and the nodes and child entries that these count; or none."""

    answer: list[int]
    nodes: list[Node]
    children: list[int]


class Library:
    """The loaded calls, with buffers that are used again for every question."""

    runs = True

    def __init__(self, path: Path) -> None:
        if not path.exists():
            raise NoAnswer(
                f"there is no {path}: build it with tools/build_library, or name another with"
                " --library or the variable TELUDDRU_SHARED"
            )
        self.path = path
        try:
            self.calls = ctypes.CDLL(str(path.resolve()))
            self.plan_call = called(self.calls.teluddru_plan, 7, 2)
            self.run_call = called(self.calls.teluddru_run, 4, 3)
            self.miss_call = called(self.calls.teluddru_first_miss, 4, 2)
            self.body_call = body_called(self.calls.teluddru_plan_body)
        except (OSError, AttributeError) as error:
            raise NoAnswer(f"{path} can't be called: {error}") from None
        self.entries = array(WORD)
        self.answer = array(WORD, [0] * HEAD_COLUMNS)
        self.tables: Tables | None = None

    def plan(self, sheet: Sheet, version: int, entries: int) -> Plan | Refusal:
        plan = self.space(entries)
        numbers = (*sheet.asked(), version)
        self.plan_call(*self.lend(sheet), *numbers, *plan, *address(self.answer))
        head = self.answer.tolist()
        try:
            return read_answer(head, self.rows(head[3] if head[0] == 0 else 0), len(sheet.nodes))
        except ListingError as error:
            raise NoAnswer(f"the plan of {self.path} can't be read: {error}") from None

    def run(
        self, sheet: Sheet, pattern: int, value: int, scoping: int, listed: list[int], entries: int
    ) -> Ran:
        """Runs a pattern on a value; `listed` has the node of each name's value, or 0.

        Where numbers of the sheet are measured, the run is one with tolerance.
        """
        values = array(WORD, listed)
        lent = self.lend_run(sheet, pattern, value, scoping, values)
        ends = ends_of(sheet) if sheet.ranges else []
        call = self.tolerance_call() if ends else self.run_call
        lent += chain.from_iterable(map(address, ends))
        call(*lent, *self.space(entries), *address(self.answer))
        head = self.answer.tolist()
        found = self.rows(self.planned(entries)) if head[0] in CARRIED_OUT else []
        try:
            return Ran(head, read_entries(found, len(sheet.nodes)), values.tolist())
        except ListingError as error:
            raise NoAnswer(f"the run's plan of {self.path} can't be read: {error}") from None

    def first_miss(
        self, sheet: Sheet, pattern: int, value: int, scoping: int, listed: list[int]
    ) -> FirstMiss:
        """Where a run of the same on exact numbers misses."""
        values = array(WORD, listed)
        lent = self.lend_run(sheet, pattern, value, scoping, values)
        self.miss_call(*lent, *address(self.answer))
        return FirstMiss(*self.answer)

    def lend_run(
        self, sheet: Sheet, pattern: int, value: int, scoping: int, values: "array[int]"
    ) -> list[int]:
        numbers = (sheet.scope.scheduler, scoping, pattern, value)
        return [*self.lend(sheet), *numbers, *address(values)]

    def plan_body(self, sheet: Sheet, lines: list[list[int]], entries: int) -> BodyAnswer:
        """Plans lines of four words each, with the tables and the scope of the sheet."""
        *tables, _, _ = self.lend(sheet)
        marks = array(BYTE, [name.marks for name in sheet.names.values()])
        words = array(WORD, chain.from_iterable(lines))
        answer = array(WORD, [0] * BODY_COLUMNS)
        lent = (*tables, *address(marks), sheet.scope.scheduler, *address(words))
        self.body_call(*lent, *self.space(entries), *address(answer))
        *head, line = answer.tolist()
        try:
            rows = self.rows(head[3] if head[0] == 0 else 0)
            return BodyAnswer(read_answer(head, rows, len(sheet.nodes)), line, marks.tolist())
        except ListingError as error:
            raise NoAnswer(f"the plan of {self.path} can't be read: {error}") from None

    def common_example(self, sheet: Sheet, *sides: LentSide) -> ExampleAnswer:
        """A value that the patterns of two sides both match, behind the tables of the sheet."""
        *tables, _, _ = self.lend(sheet)
        kept = [(array(BYTE, side.marks), array(WORD, side.values)) for side in sides]
        lent = []
        for (marks, values), side in zip(kept, sides):
            numbers = (side.scheduler, side.scoping, side.pattern)
            lent += [*address(marks), *numbers, *address(values)]
        nodes = array(WORD, [0] * (MOST_NODES * NODE_WORDS))
        children = array(WORD, [0] * MOST_NODES)
        written = chain.from_iterable(map(address, (nodes, children, self.answer)))
        self.example_call()(*tables, *lent, *written)
        head = self.answer.tolist()
        _, _, node_count, child_count = head
        rows = zip(*[iter(nodes[: node_count * NODE_WORDS])] * NODE_WORDS)
        try:
            found = [Node(Kind(kind), *words) for kind, *words in rows]
        except ValueError as error:
            raise NoAnswer(f"the example of {self.path} can't be read: {error}") from None
        return ExampleAnswer(head, found, children[:child_count].tolist())

    def example_call(self) -> ctypes._CFuncPtr:
        try:
            return example_called(self.calls.teluddru_common_example)
        except AttributeError:
            raise NoAnswer(f"{self.path} doesn't know --both: build it anew") from None

    def tolerance_call(self) -> ctypes._CFuncPtr:
        try:
            return called(self.calls.teluddru_run_with_tolerance, 4, 5)
        except AttributeError:
            raise NoAnswer(f"{self.path} doesn't know ranges: build it anew") from None

    def lend(self, sheet: Sheet) -> list[int]:
        if self.tables is None or self.tables.sheet is not sheet:
            self.tables = Tables(sheet)
        return self.tables.lent

    def space(self, entries: int) -> tuple[int, int]:
        """The plan buffer, with space for so many entries."""
        words = entries * ENTRY_COLUMNS
        if len(self.entries) < words:
            self.entries = array(WORD, bytes(words * self.entries.itemsize))
        return address(self.entries)[0], words

    def planned(self, space: int) -> int:
        """How many entries a run has planned: no kind is 0, and behind a plan are zeros."""
        kinds = self.entries[: space * ENTRY_COLUMNS : ENTRY_COLUMNS]
        return kinds.index(0) if 0 in kinds else len(kinds)

    def rows(self, entries: int) -> list[list[int]]:
        words = self.entries[: entries * ENTRY_COLUMNS].tolist()
        places = range(0, len(words), ENTRY_COLUMNS)
        return [words[place : place + ENTRY_COLUMNS] for place in places]


class Tables:
    """The six tables of a sheet and its marks, each as an address and a length."""

    def __init__(self, sheet: Sheet) -> None:
        names = list(sheet.names.values())
        signed = map(sign_and_size, sheet.numbers)
        self.sheet = sheet
        self.kept = [
            array(WORD, chain.from_iterable(sheet.nodes)),
            array(WORD, sheet.children),
            array(LONG, chain.from_iterable(signed)),
            array(WORD, chain.from_iterable(name[:2] for name in names)),
            array(BYTE, sheet.strings),
            array(BYTE, sheet.text),
            array(BYTE, [name.marks for name in names]),
        ]
        self.lent = list(chain.from_iterable(map(address, self.kept)))


def sign_and_size(number: int) -> tuple[int, int]:
    return int(number < 0), abs(number)


def ends_of(sheet: Sheet) -> "list[array[int]]":
    """The lowest and the highest numbers by node; those of an exact number are its own."""
    ranges = [range_of(sheet, node) for node in range(1, len(sheet.nodes) + 1)]
    return [array(LONG, chain.from_iterable(map(sign_and_size, ends))) for ends in zip(*ranges)]


def called(call: ctypes._CFuncPtr, numbers: int, written: int) -> ctypes._CFuncPtr:
    """A call of the tables, so many numbers and so many ranges that are written."""
    call.argtypes = LENT * TABLES + [ctypes.c_uint32] * numbers + LENT * written
    call.restype = ctypes.c_uint32
    return call


def body_called(call: ctypes._CFuncPtr) -> ctypes._CFuncPtr:
    """The tables, the scheduler, the lines, and the two ranges that are written."""
    call.argtypes = LENT * TABLES + [ctypes.c_uint32] + LENT * 3
    call.restype = ctypes.c_uint32
    return call


def example_called(call: ctypes._CFuncPtr) -> ctypes._CFuncPtr:
    """The tables without marks, two sides with their own, and the three ranges that are written."""
    side = LENT + [ctypes.c_uint32] * 3 + LENT
    call.argtypes = LENT * (TABLES - 1) + side * 2 + LENT * 3
    call.restype = ctypes.c_uint32
    return call


def address(words: "array[int]") -> tuple[int, int]:
    place, length = words.buffer_info()
    return (place, length) if length else (NOTHING.buffer_info()[0], 0)
