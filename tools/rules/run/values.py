"""Values as Run has them: literals, arrays and objects with differing literal keys."""

from collections.abc import Iterator
from typing import NamedTuple

from rules.tables.sheet import WILDCARD, Sheet
from rules.text.rule_text import LITERALS, Kind

COMPOUND = frozenset({Kind.ARRAY, Kind.SET, Kind.OBJECT})
FAULTS = {Kind.SET: "a set", Kind.OTHER: "an expression that is taken whole"}


class Literal(NamedTuple):
    """A literal by its value: a string and a raw string of equal bytes are equal."""

    kind: Kind
    value: bytes | int | None


class Fault(NamedTuple):
    """A node that a pattern or a value of a run can't have."""

    node: int
    what: str


def literal_of(sheet: Sheet, number: int) -> Literal:
    kind, _, _, first, count = sheet.node(number)
    if kind is Kind.STRING:
        return Literal(Kind.STRING, bytes(sheet.strings[first : first + count]))
    if kind is Kind.NUMBER:
        return Literal(Kind.NUMBER, sheet.numbers[first])
    if kind is Kind.RAW_STRING:
        return Literal(Kind.STRING, sheet.text[first : first + count])
    return Literal(kind, first) if kind is Kind.BOOL else Literal(Kind.NULL, None)


def fields_of(sheet: Sheet, number: int) -> dict[Literal, int]:
    """The value under each key of an object, as written."""
    items = sheet.items_of(number)
    return {literal_of(sheet, key): value for key, value in zip(items[::2], items[1::2])}


def key_text(literal: Literal) -> str:
    """As document 01 has it: the bytes of a string, the decimal form of a number."""
    match literal.kind:
        case Kind.STRING:
            return literal.value.decode()
        case Kind.NUMBER:
            return str(literal.value)
        case Kind.BOOL:
            return "true" if literal.value else "false"
        case _:
            return "null"


def names_below(sheet: Sheet, number: int) -> Iterator[int]:
    """The nodes of names at or below a node, as written, through arrays, sets and objects."""
    kind = sheet.node(number).kind
    if kind is Kind.NAME:
        yield number
    elif kind in COMPOUND:
        for item in sheet.items_of(number):
            yield from names_below(sheet, item)


def no_value(sheet: Sheet, number: int) -> Fault | None:
    """The first place, as written, that makes this no value."""
    return next(faults(sheet, number, names=False), None)


def not_simple(sheet: Sheet, number: int) -> Fault | None:
    """The first place, as written, that makes this no pattern that a run takes."""
    return next(faults(sheet, number, names=True), None)


def faults(sheet: Sheet, number: int, names: bool) -> Iterator[Fault]:
    """What stands in the way of a run at or below a node, names too unless they may be there."""
    kind = sheet.node(number).kind
    if kind in FAULTS:
        yield Fault(number, FAULTS[kind])
    elif kind is Kind.NAME and not names:
        yield Fault(number, "a wildcard" if sheet.name_of(number) == WILDCARD else "a name")
    elif kind is Kind.OBJECT:
        yield from field_faults(sheet, number, names)
    elif kind is Kind.ARRAY:
        for item in sheet.items_of(number):
            yield from faults(sheet, item, names)


def field_faults(sheet: Sheet, number: int, names: bool) -> Iterator[Fault]:
    items = sheet.items_of(number)
    keys: set[Literal] = set()
    for key, value in zip(items[::2], items[1::2]):
        if sheet.node(key).kind not in LITERALS:
            yield Fault(key, "a computed key")
        elif literal_of(sheet, key) in keys:
            yield Fault(key, "a repeated key")
        keys.add(literal_of(sheet, key))
        yield from faults(sheet, value, names)
