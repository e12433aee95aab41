"""What is said of the items of a file of parts: a line for each that doesn't match."""

from rules.parts.files.items import BadItem
from rules.parts.places import Where, deciding_numbers, where
from rules.parts.running import Ran, Result
from rules.run.verdict import Match, NoMatch, Sometimes, Verdict
from rules.tables.listing import Refusal
from rules.tables.places import node_text
from rules.tables.sheet import Sheet
from rules.text.source import decoded, shown
from rules.words.refusals import meaning_in_words, over_limits, places_of

TOO_MANY = " is too many: "
LEAVES_OUT = " (--open leaves it out)"


def result_in_words(file: str, result: Result) -> str:
    """Nothing of an item that matches."""
    if isinstance(result, BadItem):
        return head_in_words(file, result.line, result.title) + shown(result.message) + "\n"
    said = verdict_in_words(result.sheet, result.verdict)
    return head_in_words(file, result.item.line, result.item.title()) + f"{said}\n" if said else ""


def head_in_words(file: str, line: int, title: str) -> str:
    return f"{shown(file)}:{line}: " + (f"{shown(title)}: " if title else "")


def verdict_in_words(sheet: Sheet, verdict: Verdict) -> str:
    match verdict:
        case NoMatch(miss):
            return f"{verdict.said}{where_in_words(where(sheet, miss))}"
        case Sometimes(undecided):
            at = where_in_words(where(sheet, undecided))
            return f"{verdict.said}{at}; {deciding_numbers(sheet, verdict)}"
        case Refusal():
            return refusal_in_words(sheet, verdict)
        case _:
            return ""


def where_in_words(place: Where) -> str:
    return f" at {place.path}: {place.words}" if place.path else f": {place.words}"


def refusal_in_words(sheet: Sheet, refusal: Refusal) -> str:
    """On one line."""
    places = [f"{label}: {node_text(sheet, node)}" for node, label in places_of(sheet, refusal)]
    limits = over_limits(sheet) if refusal.number == 1 else []
    return "; ".join([meaning_in_words(refusal), *places, *limits])


def names_in_words(ran: Ran) -> str:
    """What a match gives its names."""
    values = ran.verdict.values if isinstance(ran.verdict, Match) else {}
    said = (f"{decoded(name)} = {node_text(ran.sheet, node)}" for name, node in values.items())
    return ", ".join(said)


class Hints:
    """Adds to the first key that is too many what leaves it out."""

    def __init__(self, only_named: bool) -> None:
        self.said = only_named

    def hinted(self, line: str) -> str:
        if self.said or TOO_MANY not in line:
            return line
        self.said = True
        return line.removesuffix("\n") + LEAVES_OUT + "\n"
