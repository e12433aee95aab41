"""What is run on what, and which nodes meet in it."""

from collections.abc import Iterator
from typing import NamedTuple

from rules.run.values import fields_of
from rules.tables.sheet import WILDCARD, Sheet
from rules.text.rule_text import LITERALS, Kind


class Task(NamedTuple):
    """What is run on what."""

    pattern: int
    value: int
    scoping: int


class Meeting(NamedTuple):
    """Two nodes that are to be matched with each other, one of each side."""

    left: int
    right: int


class Compared(NamedTuple):
    """A name or literal of the pattern, the node that it stands for, and the one it is held to."""

    asked: int
    left: int
    node: int


def meetings(sheet: Sheet, left: int, right: int) -> Iterator[Meeting]:
    """The nodes that are paired: item by item, and under literal keys as the right has them."""
    yield Meeting(left, right)
    kinds = sheet.node(left).kind, sheet.node(right).kind
    if kinds == (Kind.ARRAY, Kind.ARRAY):
        for pair in zip(sheet.items_of(left), sheet.items_of(right)):
            yield from meetings(sheet, *pair)
    elif kinds == (Kind.OBJECT, Kind.OBJECT) and not computed_keys(sheet, left, right):
        fields = fields_of(sheet, left)
        for key, value in fields_of(sheet, right).items():
            if key in fields:
                yield from meetings(sheet, fields[key], value)


def computed_keys(sheet: Sheet, *objects: int) -> list[int]:
    keys = (key for number in objects for key in sheet.items_of(number)[::2])
    return [key for key in keys if sheet.node(key).kind not in LITERALS]


def known_values(sheet: Sheet, scoping: int) -> dict[bytes, int]:
    """The nodes of the values of known names."""
    given = sheet.given.items()
    return {name: node for name, node in given if sheet.scope.is_known(name, scoping)}


def compared_in_run(sheet: Sheet, task: Task) -> Iterator[Compared]:
    """What a run compares, in its order, up to an array or object of another shape."""
    values = known_values(sheet, task.scoping)
    for node, asked in meetings(sheet, task.value, task.pattern):
        kind = sheet.node(asked).kind
        if kind in LITERALS:
            yield Compared(asked, asked, node)
        elif kind is not Kind.NAME and not have_one_shape(sheet, asked, node):
            return
        elif kind is Kind.NAME and sheet.name_of(asked) != WILDCARD:
            name = sheet.name_of(asked)
            if name in values:
                yield Compared(asked, values[name], node)
            values.setdefault(name, node)


def have_one_shape(sheet: Sheet, left: int, right: int) -> bool:
    """Two arrays of one length, or two objects of the same keys."""
    one, other = sheet.node(left), sheet.node(right)
    if one.kind is not other.kind or one.count != other.count:
        return False
    return one.kind is Kind.ARRAY or fields_of(sheet, left).keys() == fields_of(sheet, right).keys()
