"""Asks for an example that both patterns match, and runs both on it."""

from dataclasses import dataclass, replace

from rules.answer import Answer, ask
from rules.both.sides import Side
from rules.both.unify import Clash, clash_of
from rules.both.value_text import value_text
from rules.no_answer import NoAnswer
from rules.run.meetings import Task
from rules.run.values import Fault, not_simple
from rules.run.verdict import (
    NO_VALUE_OF_NAME,
    NOT_A_VALUE,
    NOT_SIMPLE,
    Match,
    check_reading,
    given_fault,
    name_without_value,
    refused,
)
from rules.tables.library import EXAMPLE, NO_EXAMPLE, ExampleAnswer, Library
from rules.tables.listing import Refusal, RunRefusal
from rules.tables.sheet import Sheet
from rules.words.refusals import LAST_OF_TABLES

OVER_A_LIMIT = 1
VALUE_TOO_LARGE = 36
# Of two patterns of which neither is refused.
ANSWERS = {EXAMPLE: "an example", NO_EXAMPLE: "no example", VALUE_TOO_LARGE: "refusal 36"}


@dataclass(frozen=True)
class Example:
    """A value as text, its node behind the tables, and the run of each pattern on it."""

    text: str
    sheet: Sheet
    node: int
    runs: list[Answer]


@dataclass(frozen=True)
class NoExample:
    """The two places that can't agree; none where they were not found."""

    clash: Clash | None


@dataclass(frozen=True)
class Refused:
    """A refusal of one side, or of both together; the sheet has its place."""

    refusal: Refusal
    sheet: Sheet
    side: str = ""


Outcome = Example | NoExample | Refused


def example_of(sides: list[Side], planner: Library) -> Outcome:
    found = planner.common_example(sides[0].tables, *(side.lent() for side in sides))
    number, *_ = found.answer
    if EXAMPLE < number <= LAST_OF_TABLES:
        return tables_refused(number, sides, planner)
    read = side_refused(sides)
    check_reading("call", number, ANSWERS, read.refusal if read else None)
    if read:
        return read
    if number == EXAMPLE:
        return example_given(sides, found, planner)
    return together(number, sides) if number == VALUE_TOO_LARGE else NoExample(clash_of(sides))


def together(number: int, sides: list[Side]) -> Refused:
    """A refusal that is of neither pattern alone."""
    return Refused(Refusal(number, 0, (0, 0)), sides[0].tables)


def tables_refused(number: int, sides: list[Side], planner: Library) -> Refused:
    """Of the first side whose pattern is refused so alone, or of both together."""
    for side in sides:
        alone = ask(side.question, planner)
        if isinstance(alone.outcome, Refusal) and alone.outcome.number == number:
            return Refused(alone.outcome, alone.sheet, side.said())
    return together(number, sides)


def side_refused(sides: list[Side]) -> Refused | None:
    """The tool's own reading: 21, 22 or 23 of the first side, or else of the second."""
    for side in sides:
        refusal = refusal_of(side)
        if refusal:
            return Refused(refusal, side.tables, side.said())
    return None


def refusal_of(side: Side) -> RunRefusal | None:
    sheet = side.tables
    fault = not_simple(sheet, side.root)
    if fault:
        return refused(NOT_SIMPLE, fault)
    fault = given_fault(sheet)
    if fault:
        return refused(NOT_A_VALUE, fault)
    name = name_without_value(sheet, Task(side.root, 0, sheet.scope.scoping))
    return refused(NO_VALUE_OF_NAME, Fault(name, "the name")) if name else None


def example_given(sides: list[Side], found: ExampleAnswer, planner: Library) -> Example:
    tables = sides[0].tables
    sheet = replace(
        tables, nodes=tables.nodes + found.nodes, children=tables.children + found.children
    )
    _, node, *_ = found.answer
    text = value_text(sheet, node)
    runs = [ask(replace(side.question, on=text.encode()), planner) for side in sides]
    for side, run in zip(sides, runs):
        check_run(side, run)
    return Example(text, sheet, node, runs)


def check_run(side: Side, run: Answer) -> None:
    """A run that matches, or one that the limits don't allow."""
    over = isinstance(run.outcome, Refusal) and run.outcome.number == OVER_A_LIMIT
    if not over and not isinstance(run.verdict, Match):
        raise NoAnswer(f"a run of the {side.said()} pattern on the example found doesn't match")
