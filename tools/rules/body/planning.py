"""Asks the planner a rule body: as a whole, and line by line."""

from dataclasses import dataclass, replace

from rules.body.lines import Body, BodyLine
from rules.no_answer import NoAnswer
from rules.tables.library import Library
from rules.tables.listing import EntryKind, Plan, Refusal
from rules.tables.sheet import Name, Scope, Sheet


@dataclass(frozen=True)
class PlannedLine:
    """A line that is planned, and the names that it binds."""

    line: BodyLine
    plan: Plan
    binds: list[bytes]


@dataclass(frozen=True)
class BodyRefusal:
    """A refusal; the line, or none of words that are no body; the scope before the line."""

    refusal: Refusal
    line: BodyLine | None
    place: int
    scope: Scope


@dataclass(frozen=True)
class BodyOutcome:
    """The lines that are planned, what is refused behind them, and what the body then binds."""

    body: Body
    planned: list[PlannedLine]
    refused: BodyRefusal | None
    binds: list[bytes]


def plan_body(body: Body, planner: Library, entries: int) -> BodyOutcome:
    """The call leaves the last line's plan, so it is called with each first part of the body."""
    words = [line.words() for line in body.lines]
    whole = planner.plan_body(body.tables, words, entries)
    refused = isinstance(whole.outcome, Refusal)
    count = max(whole.line - 1, 0) if refused else len(body.lines)
    marks = marks_of(body.tables)
    planned = []
    for place, line in enumerate(body.lines[:count]):
        part = planner.plan_body(body.tables, words[: place + 1], entries)
        if isinstance(part.outcome, Refusal):
            raise NoAnswer(f"{planner.path} refuses a part of a body that it plans")
        planned.append(PlannedLine(line, part.outcome, changed(body.tables, marks, part.marks)))
        marks = part.marks
    binds = changed(body.tables, marks_of(body.tables), whole.marks)
    if not isinstance(whole.outcome, Refusal):
        return BodyOutcome(body, planned, None, binds)
    line = body.lines[whole.line - 1] if whole.line else None
    refusal = BodyRefusal(whole.outcome, line, whole.line, scope_of(body.tables, marks))
    return BodyOutcome(body, planned, refusal, binds)


def marks_of(sheet: Sheet) -> list[int]:
    return [name.marks for name in sheet.names.values()]


def changed(sheet: Sheet, before: list[int], after: list[int]) -> list[bytes]:
    """The names whose marks differ: binding a name changes its marks, and nothing else does."""
    marks = zip(sheet.names, before, after)
    return [name for name, old, new in marks if old != new]


def scope_of(sheet: Sheet, marks: list[int]) -> Scope:
    return replace(sheet.scope, marks=dict(zip(sheet.names, marks)))


def binds_alone(line: BodyLine, scope: Scope, planner: Library, entries: int) -> list[bytes]:
    """The names that a line's own plan binds, from a scope; none of a line that is refused."""
    marked = {
        name: Name(start, length, scope.marks.get(name, 0))
        for name, (start, length, _) in line.sheet.names.items()
    }
    sheet = replace(line.sheet, scope=scope, names=marked)
    plan = planner.plan(sheet, 0, entries)
    if isinstance(plan, Refusal):
        return []
    bound = [entry.node for entry in plan.entries if entry.kind is EntryKind.BIND]
    return [sheet.name_of(node) for node in bound]
