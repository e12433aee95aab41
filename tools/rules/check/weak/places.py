"""Compares that no line of a file would miss: with `_` in their place all answers stay."""

from collections import defaultdict
from collections.abc import Iterator, Sequence
from typing import NamedTuple

from rules.answer import Answer, Planner
from rules.check.checking import Checked, Result, checked
from rules.check.lines import LinePart
from rules.parts.tally import PartsTally
from rules.run.roles import EQUALITY_CHECK
from rules.run.task import ASSIGNMENTS, PAIRS, right_is_the_pattern
from rules.run.verdict import Match, NoMatch, Sometimes
from rules.tables.listing import EntryKind, Plan
from rules.tables.sheet import Sheet
from rules.text.rule_text import LITERALS, Kind, Operation

IGNORED = b"_"
COMPARES = (EntryKind.COMPARE_EXPRESSION, EntryKind.COMPARE_LITERAL)


class Tested(NamedTuple):
    """A line that is as expected, and where the pattern stands in its rule."""

    result: Checked
    start: int
    end: int

    def without(self, place: "Place") -> bytes:
        """The rule with `_` in a place of its pattern."""
        text = self.result.line.rule.text
        return text[: self.start + place.start] + IGNORED + text[self.start + place.end :]


class Place(NamedTuple):
    """Bytes of a pattern, from its first."""

    start: int
    end: int


class Weak(NamedTuple):
    """A pattern's lines, and a place in it that none of them tests."""

    lines: Sequence[Tested]
    place: Place


def weak_places(results: Sequence[Result], planner: Planner) -> Iterator[Weak]:
    """Of each pattern that is run, the compared names and literals that could as well be `_`."""
    patterns: dict[bytes, list[Tested]] = defaultdict(list)
    for tested in filter(None, map(tested_pattern, results)):
        patterns[tested.result.line.rule.text[tested.start : tested.end]].append(tested)
    for lines in patterns.values():
        run = [tested for tested in lines if is_run(tested.result)]
        for place in sorted({place for tested in run for place in compared_in(tested)}):
            if all(still_agrees(tested, place, planner) for tested in lines):
                yield Weak(lines, place)


def tested_pattern(result: Result) -> Tested | None:
    """The pattern of a rule that is planned and as expected; none of pairs, which have two."""
    if not isinstance(result, Checked) or not result.agrees:
        return None
    number = pattern_of(result.answer)
    if number == 0:
        return None
    node = result.answer.sheet.node(number)
    return Tested(result, node.start, node.end)


def pattern_of(answer: Answer) -> int:
    sheet, plan = answer.sheet, answer.outcome
    left, right, _ = sheet.roots
    if not isinstance(plan, Plan) or (plan.form == PAIRS and is_equation(sheet)):
        return 0
    return right if is_equation(sheet) and right_is_the_pattern(sheet, plan) else left


def is_equation(sheet: Sheet) -> bool:
    return sheet.operation in ASSIGNMENTS and sheet.operation is not Operation.COLON_EQUALS


def is_run(result: Checked) -> bool:
    return isinstance(result.answer.verdict, Match | NoMatch | Sometimes | PartsTally)


def compared_in(tested: Tested) -> Iterator[Place]:
    """The names and literals of the pattern that the line's plan compares."""
    sheet = tested.result.answer.sheet
    for number in compared_nodes(tested.result.answer):
        node = sheet.node(number)
        inside = tested.start <= node.start and node.end <= tested.end
        if inside and (node.kind is Kind.NAME or node.kind in LITERALS):
            yield Place(node.start - tested.start, node.end - tested.start)


def compared_nodes(answer: Answer) -> list[int]:
    """Those of the plan's entries; of a check of equality, which has none, all of the pattern."""
    sheet, plan = answer.sheet, answer.outcome
    if is_equation(sheet) and plan.form == EQUALITY_CHECK:
        return list(parts_below(sheet, pattern_of(answer)))
    return [entry.node for entry in plan.entries if entry.kind in COMPARES]


def parts_below(sheet: Sheet, number: int) -> Iterator[int]:
    """A node and those below it that a pattern takes apart: items, and the values of fields."""
    yield number
    for item in items_below(sheet, number):
        yield from parts_below(sheet, item)


def items_below(sheet: Sheet, number: int) -> list[int]:
    """The items of an array, the values of an object."""
    kind = sheet.node(number).kind
    if kind not in (Kind.ARRAY, Kind.OBJECT):
        return []
    items = sheet.items_of(number)
    return items[1::2] if kind is Kind.OBJECT else items


def still_agrees(tested: Tested, place: Place, planner: Planner) -> bool:
    """Whether the line is as expected with `_` there; a name may be gone from the rule."""
    line = tested.result.line
    shared = line.shared + line.own
    changed = line._replace(rule=LinePart(tested.without(place), 0), shared=shared, own=())
    other = checked(changed, planner, folder=tested.result.folder)
    return isinstance(other, Checked) and other.agrees
