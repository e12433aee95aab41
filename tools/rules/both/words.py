"""What is said of two patterns: their example with both runs, or why there is none."""

from rules.answer import Answer
from rules.both.asking import Example, NoExample, Outcome, Refused
from rules.both.names import SIDES, full_name
from rules.both.sides import Side
from rules.both.unify import Asked, Clash, Reason
from rules.tables.listing import Refusal
from rules.tables.places import column_of, marked_node, node_text
from rules.tables.sheet import GIVEN, Sheet
from rules.text.rule_text import LITERALS, Kind
from rules.text.source import decoded
from rules.words.plans import plan_in_words
from rules.words.refusals import refusal_in_words
from rules.words.verdicts import verdict_in_words

NONE = "no value matches both patterns"
NOT_FOUND = "the place where they can't agree was not found"
HOLDS_ITSELF = "would have to hold itself"


def outcome_in_words(sides: list[Side], outcome: Outcome) -> str:
    match outcome:
        case Example(text, runs=runs):
            said = [f"{side.said()} pattern: {run_in_words(run)}" for side, run in zip(sides, runs)]
            return f"both match {text}\n" + "".join(said)
        case NoExample(None):
            return f"{NONE}\n{NOT_FOUND}\n"
        case NoExample(clash):
            sheet = sides[0].tables
            places = [marked_node(sheet, *place) for place in clash_in_words(sheet, clash)]
            return "\n".join([NONE, *places]) + "\n"
        case Refused(refusal, sheet, side):
            whose = f"{side} pattern" if side else "the patterns together"
            return f"{whose}: {refusal_in_words(sheet, refusal)}"


def run_in_words(run: Answer) -> str:
    """A plan and its run, as of a pattern alone; or that the limits don't allow the run."""
    if isinstance(run.outcome, Refusal):
        return f"not run on it: {refusal_in_words(run.sheet, run.outcome)}"
    return plan_in_words(run.sheet, run.outcome) + verdict_in_words(run)


def clash_in_words(sheet: Sheet, clash: Clash) -> list[tuple[int, str]]:
    """Of each pattern the node at which they can't agree, and what is asked for there."""
    return [
        (caret_node(sheet, clash, asked), f"the {side} asks for {what_of(sheet, clash, asked)}")
        for side, asked in zip(SIDES, (clash.first, clash.second))
    ]


def caret_node(sheet: Sheet, clash: Clash, asked: Asked) -> int:
    by_key = asked.at_itself() and has_key(sheet, clash, asked)
    return clash.key if by_key else asked.meeting.at


def what_of(sheet: Sheet, clash: Clash, asked: Asked) -> str:
    in_words = node_in_words if asked.at_itself() else name_in_words
    said = in_words(sheet, clash, asked)
    if clash.reason is not Reason.HOLDS_ITSELF or asked is not without_end(clash):
        return said
    if asked.head is None:
        return f"{said}, {'a part of which' if asked.meeting.inside else 'which'} {HOLDS_ITSELF}"
    return f"{said}, and that {HOLDS_ITSELF}"


def without_end(clash: Clash) -> Asked:
    """The side of which it is said that it would have to hold itself: a free name's, if one is."""
    return clash.first if clash.first.head is None else clash.second


def name_in_words(sheet: Sheet, clash: Clash, asked: Asked) -> str:
    """What a name stands for, or has in it, and where that stands."""
    name = f"`{node_text(sheet, asked.meeting.at)}`"
    if asked.head is None:
        return name
    if has_key(sheet, clash, asked):
        key = clash.key
        return f"{name}, which has key {node_text(sheet, key)} {where(sheet, asked, key)}"
    node = asked.head.node
    verb = "has" if asked.meeting.inside else "is"
    return f"{name}, which {verb} {node_text(sheet, node)} {where(sheet, asked, node)}"


def node_in_words(sheet: Sheet, clash: Clash, asked: Asked) -> str:
    number = asked.head.node
    node = sheet.node(number)
    if clash.reason is Reason.KEYS:
        key = f"key {node_text(sheet, clash.key)}"
        return key if has_key(sheet, clash, asked) else f"an object without {key}"
    if clash.reason is Reason.HOLDS_ITSELF or node.kind in LITERALS:
        return node_text(sheet, number)
    return f"an array of {node.count}" if node.kind is Kind.ARRAY else "an object"


def has_key(sheet: Sheet, clash: Clash, asked: Asked) -> bool:
    """Whether it is this side's object that has the key of a clash of keys."""
    of_keys = clash.reason is Reason.KEYS
    return of_keys and clash.key in sheet.items_of(asked.head.node)[::2]


def where(sheet: Sheet, asked: Asked, number: int) -> str:
    """Where a value stands: in a pattern, or given, to the name that is asked for or to another."""
    part = sheet.part_of(sheet.node(number).start)
    if part.what != GIVEN:
        return f"({part.what} pattern, column {column_of(sheet, number)})"
    side = sheet.part_of(sheet.node(asked.meeting.at).start).what
    name = full_name(SIDES.index(side), sheet.name_of(asked.meeting.at))
    return "(given)" if part.name == name else f"(given to {decoded(part.name)})"
