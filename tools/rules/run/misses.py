"""Where a run misses, in words: the two nodes and why are told by the proved call."""

from dataclasses import dataclass
from enum import IntEnum

from rules.run.meetings import Task, compared_in_run
from rules.tables.library import FirstMiss
from rules.tables.places import node_text, place_in_words
from rules.tables.sheet import Sheet
from rules.text.rule_text import Kind


class Why(IntEnum):
    """As enum teluddru_miss has it."""

    NAME = 1
    LITERAL = 2
    NO_ARRAY = 3
    LENGTH = 4
    NO_OBJECT = 5
    KEY_MISSING = 6
    KEY_TOO_MANY = 7


@dataclass(frozen=True)
class Miss:
    """The node of the value at which a run first misses, that of the pattern, and why."""

    node: int
    asked: int
    words: str


def miss_of(sheet: Sheet, task: Task, first: FirstMiss) -> Miss:
    node, asked = first.node, first.asked
    match Why(first.why):
        case Why.NAME:
            return compared_miss(sheet, asked, value_met(sheet, task, asked), node)
        case Why.LITERAL:
            return compared_miss(sheet, asked, asked, node)
        case Why.NO_ARRAY | Why.LENGTH as why:
            words = f"an array of {sheet.node(asked).count} is asked for {at(sheet, asked)}"
            stands = f"an array of {sheet.node(node).count}" if why is Why.LENGTH else ""
            return found(sheet, node, asked, words, stands)
        case Why.NO_OBJECT:
            return found(sheet, node, asked, f"an object is asked for {at(sheet, asked)}")
        case Why.KEY_MISSING:
            words = f"key {node_text(sheet, asked)} is asked for {at(sheet, asked)}"
            return Miss(node, asked, f"{words}, and this object has none")
        case Why.KEY_TOO_MANY:
            return key_too_many(sheet, node, asked)


def value_met(sheet: Sheet, task: Task, asked: int) -> int:
    """The node of a compared name's value: the given one, or what the name has met first."""
    return next(met.left for met in compared_in_run(sheet, task) if met.asked == asked)


def compared_miss(sheet: Sheet, asked: int, left: int, node: int, verb: str = "is") -> Miss:
    """A name's value, or a part of it that it has, or a literal, is not what stands there."""
    text = node_text(sheet, left)
    if sheet.node(asked).kind is not Kind.NAME:
        return found(sheet, node, asked, f"{text} is asked for {at(sheet, left)}")
    words = f"`{node_text(sheet, asked)}` {verb} {text} {at(sheet, left, asked, node)}"
    return found(sheet, node, asked, words)


def key_too_many(sheet: Sheet, key: int, asked: int) -> Miss:
    text = node_text(sheet, key)
    words = f"key {text} is too many: the object asked for {at(sheet, asked)} has none"
    return Miss(key, asked, f"{words}; write {text}: _ to let it pass")


def found(sheet: Sheet, node: int, asked: int, words: str, what: str = "") -> Miss:
    """A miss at a node, or at the name in whose place its value stands."""
    text = what or node_text(sheet, node)
    name = sheet.names_of.get(node, 0)
    if name:
        stands = f"`{node_text(sheet, name)}` is {text} {at(sheet, node, name)}"
        return Miss(name, asked, f"{words}, and {stands}")
    return Miss(node, asked, f"{words}, and {text} stands here")


def at(sheet: Sheet, node: int, asked: int = 0, here: int = 0) -> str:
    return f"({place_in_words(sheet, node, asked, here)})"
