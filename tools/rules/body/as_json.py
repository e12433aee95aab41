"""A rule body as an object for JSON; tools/README.md, "Rule bodies", says its fields."""

from rules.body.planning import BodyOutcome, BodyRefusal, PlannedLine
from rules.text.source import decoded
from rules.words.as_json import OPERATIONS, Object, plan_object, refusal_object
from rules.words.conclusions import is_never


def body_object(name: str, outcome: BodyOutcome, binder: int) -> Object:
    refused = outcome.refused
    return {
        "file": name,
        "answer": "refused" if refused else "accepted",
        "lines": [line_object(line) for line in outcome.planned],
        "binds": names_of(outcome.binds),
        "refused": refused_object(outcome, refused, binder) if refused else None,
    }


def line_object(planned: PlannedLine) -> Object:
    sheet = planned.line.sheet
    return {
        "line": planned.line.number,
        "text": decoded(sheet.parts[0].text),
        "operation": OPERATIONS[sheet.operation],
        **plan_object(sheet, planned.plan),
        "binds": names_of(planned.binds),
    }


def refused_object(outcome: BodyOutcome, refused: BodyRefusal, binder: int) -> Object:
    line = refused.line
    sheet = line.sheet if line else outcome.body.tables
    return {
        "line": line.number if line else None,
        "text": decoded(sheet.parts[0].text) if line else None,
        **refusal_object(sheet, refused.refusal),
        "never": is_never(sheet, refused.refusal),
        "bound_by_line": binder or None,
    }


def names_of(names: list[bytes]) -> list[str]:
    return [decoded(name) for name in names]
