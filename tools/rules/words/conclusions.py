"""What follows from a refusal, for whoever wrote the rule."""

import shlex
from collections.abc import Iterator
from typing import NamedTuple

from rules.run.values import Fault, not_simple
from rules.tables.listing import Refusal
from rules.tables.places import marked_node, node_text
from rules.tables.sheet import RULE, VALUE, WILDCARD, Part, Sheet
from rules.text.hints import VALUES_WRITTEN
from rules.text.rule_text import Kind, Operation
from rules.text.source import decoded
from rules.words.meetings import advice_of, meeting_at

# Document 02, request 12.
SHAPE_REFUSALS = range(12, 17)
NO_WAY = 18
NOT_A_VALUE = 22
NEVER = "so the sides never match, whatever values the names have"
NO_ITEM = "so no item of the collection ever matches, whatever values the names have"
NOT_PROVED = "whether the sides can match is not proved, as here stands {what}"


class Conclusion(NamedTuple):
    """What follows, and the node that it is about, or 0."""

    words: str
    node: int = 0


def conclusions_of(sheet: Sheet, refusal: Refusal) -> Iterator[Conclusion]:
    if refusal.number in SHAPE_REFUSALS:
        yield shape_conclusion(sheet)
    elif refusal.number == NO_WAY:
        meeting = meeting_at(sheet, refusal.place)
        if meeting:
            yield Conclusion(advice_of(sheet, meeting))
    elif refusal.number == NOT_A_VALUE:
        yield from value_conclusions(sheet, refusal.place)


def is_never(sheet: Sheet, refusal: Refusal) -> bool:
    """Whether it is proved of such a refusal that the sides never match."""
    return refusal.number in SHAPE_REFUSALS and unproved(sheet) is None


def shape_conclusion(sheet: Sheet) -> Conclusion:
    fault = unproved(sheet)
    if fault:
        return Conclusion(NOT_PROVED.format(what=fault.what), fault.node)
    return Conclusion(NO_ITEM if sheet.operation is Operation.SOME_IN else NEVER)


def unproved(sheet: Sheet) -> Fault | None:
    """The first part of which the promise on shape refusals doesn't speak."""
    pattern, other, _ = sheet.roots
    sides = sheet.items_of(other) if sheet.operation is Operation.SOME_IN else [other]
    found = (not_simple(sheet, side) for side in (pattern, *sides))
    return next(filter(None, found), None)


def value_conclusions(sheet: Sheet, place: int) -> Iterator[Conclusion]:
    """A name in a value, by an option, is most often a string without its quotes."""
    node = sheet.node(place)
    part = sheet.part_of(node.start)
    if node.kind is not Kind.NAME or part.what == RULE:
        return
    name = node_text(sheet, place)
    if name in VALUES_WRITTEN:
        yield Conclusion(f"the value is written {VALUES_WRITTEN[name]}")
    elif sheet.name_of(place) != WILDCARD:
        yield Conclusion(f"a string stands in double quotes: {quoted(part, name)}")


def quoted(part: Part, name: str) -> str:
    """The name as a string; with its option where it is the whole value."""
    string = f'"{name}"'
    if decoded(part.text).strip() != name:
        return string
    option = "--on " if part.what == VALUE else f"--given {decoded(part.name)}="
    return option + shlex.quote(string)


def conclusions_in_words(sheet: Sheet, refusal: Refusal) -> list[str]:
    lines = []
    for words, node in conclusions_of(sheet, refusal):
        lines += [words, marked_node(sheet, node, "")] if node else [words]
    return lines
