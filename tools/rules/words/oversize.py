"""Where tables break a limit that the planner tells without a place: levels, a name's length."""

from collections.abc import Iterator

from rules.run.values import COMPOUND
from rules.tables.sheet import Sheet
from rules.text.rule_text import Kind

DEEPEST = 32
LONGEST_NAME = 255


def too_deep(sheet: Sheet) -> list[tuple[int, str]]:
    """The first node below too many others, and what it is."""
    roots = filter(None, (*sheet.roots, sheet.value, *sheet.given.values()))
    found = (node for root in roots for node in nodes_at(sheet, root, DEEPEST + 1))
    return [(node, f"level {DEEPEST + 1}") for node in found][:1]


def nodes_at(sheet: Sheet, number: int, level: int) -> Iterator[int]:
    """The nodes so many levels deep, this one being at the first."""
    if level == 1:
        yield number
    elif sheet.node(number).kind in COMPOUND:
        for item in sheet.items_of(number):
            yield from nodes_at(sheet, item, level - 1)


def long_name(sheet: Sheet) -> list[tuple[int, str]]:
    """The first name that is too long, and what it is."""
    for number, node in enumerate(sheet.nodes, 1):
        length = node.end - node.start
        if node.kind is Kind.NAME and length > LONGEST_NAME:
            return [(number, f"this name has {length} bytes, at most {LONGEST_NAME}")]
    return []
