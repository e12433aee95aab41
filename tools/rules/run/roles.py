"""What a plan does with each place of a rule: bound, compared or ignored."""

from collections.abc import Iterator
from typing import NamedTuple

from rules.tables.listing import Entry, EntryKind, Plan
from rules.tables.sheet import Sheet
from rules.text.rule_text import Kind

BOUND = "bound"
COMPARED = "compared"
IGNORED = "ignored"
OF_ENTRIES = {
    EntryKind.BIND: BOUND,
    EntryKind.IGNORE: IGNORED,
    EntryKind.COMPARE_EXPRESSION: COMPARED,
}
EQUALITY_CHECK = 5
WILDCARD = 6


class Role(NamedTuple):
    node: int
    kind: str


def roles_of(sheet: Sheet, plan: Plan) -> Iterator[Role]:
    """Names and expressions; what a literal is compared with stands in the plan alone."""
    for entry in plan.entries:
        if entry.kind in OF_ENTRIES:
            yield Role(entry.node, OF_ENTRIES[entry.kind])
    for entry, below in zip(plan.entries, plan.entries[1:]):
        if is_comparison(entry, below):
            yield from compared_in(sheet, entry.node)
    first, second, _ = sheet.roots
    if plan.form == EQUALITY_CHECK:
        yield from compared_in(sheet, first)
        yield from compared_in(sheet, second)
    if plan.form == WILDCARD:
        sides = ((first, 1), (second, 2))
        yield from (Role(root, IGNORED) for root, side in sides if plan.side & side)


def is_comparison(entry: Entry, below: Entry) -> bool:
    """A pair in which neither side binds: its value side is compared too."""
    return entry.kind is EntryKind.PAIR and below.kind is EntryKind.COMPARE_EXPRESSION


def compared_in(sheet: Sheet, number: int) -> Iterator[Role]:
    """The names at and below a node, and the other expressions there."""
    kind = sheet.node(number).kind
    if kind in (Kind.NAME, Kind.OTHER):
        yield Role(number, COMPARED)
    if kind in (Kind.ARRAY, Kind.SET, Kind.OBJECT):
        for item in sheet.items_of(number):
            yield from compared_in(sheet, item)


def names_by_role(sheet: Sheet, plan: Plan, kind: str) -> list[bytes]:
    """The names that are bound, or compared, at each of their places, as written."""
    nodes = {role.node for role in roles_of(sheet, plan) if role.kind == kind}
    names = [node for node in nodes if sheet.node(node).kind is Kind.NAME]
    return [sheet.name_of(node) for node in sorted(names, key=lambda node: sheet.node(node).start)]
