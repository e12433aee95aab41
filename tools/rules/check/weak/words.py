"""plan_rule --check --weak: the compares that nothing tests, with a line that would."""

from collections.abc import Sequence
from typing import NamedTuple

from rules.answer import Planner
from rules.check.checking import Result
from rules.check.report import Telling
from rules.check.weak.places import Weak, weak_places
from rules.check.weak.values import missing_line
from rules.text.source import column, decoded, marked, part

ADD = "add a value that it has to turn back"
THIS_WOULD = "this one would:"


class Untested(NamedTuple):
    """A compare that no line would miss: where it stands, and a line that would, or nothing."""

    number: int
    column: int
    rule: bytes
    start: int
    end: int
    missing: str

    def telling(self) -> Telling:
        text = part(self.rule, self.start, self.end)
        message = f"no line would notice if `{text}` were not compared"
        below = marked(self.rule, self.start, self.end)
        if not self.missing:
            return Telling(self.number, self.column, f"{message}: {ADD}", below)
        below += f"\n    {self.missing}"
        return Telling(self.number, self.column, f"{message}; {THIS_WOULD}", below)

    def as_object(self) -> dict[str, object]:
        """For JSON."""
        return {
            "line": self.number,
            "column": self.column,
            "text": decoded(self.rule[self.start : self.end]),
            "missing": self.missing or None,
        }


def untested(results: Sequence[Result], planner: Planner) -> list[Untested]:
    return [untested_at(weak, planner) for weak in weak_places(results, planner)]


def untested_at(weak: Weak, planner: Planner) -> Untested:
    """Told at the first line that has the pattern."""
    first = weak.lines[0]
    line = first.result.line
    start, end = first.start + weak.place.start, first.start + weak.place.end
    at = column(line.text, line.rule.start + start)
    return Untested(line.number, at, line.rule.text, start, end, missing_line(weak, planner))
