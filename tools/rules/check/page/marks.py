"""Which places of a rule's text the page marks, and the text with these marks as HTML."""

import re
from collections.abc import Iterable, Iterator
from html import escape
from typing import NamedTuple

from rules.answer import Answer
from rules.run.roles import BOUND, COMPARED, IGNORED, roles_of
from rules.run.verdict import NoMatch, Sometimes
from rules.tables.listing import Plan, Refusal
from rules.tables.sheet import Sheet
from rules.text.source import decoded, shown
from rules.words.refusals import places_of

PLACE = "place"
MISS = "miss"
RANGE = "range"

# What each mark says.
LEGEND = {
    BOUND: "a name that is given a value",
    COMPARED: "a name or expression that is compared with its value",
    IGNORED: "a place that is ignored",
    PLACE: "the place of a refusal or a note",
    MISS: "the first miss of a run",
}
# Said on pages that have it.
OF_RANGES = {RANGE: "a number that is measured: a lowest and a highest"}
TITLES = LEGEND | OF_RANGES
# Text that may run from right to left, up to the end of its string.
FOREIGN = re.compile(r'[^\x00-\x7f](?:[^"`]*[^\x00-\x7f])?')


class Mark(NamedTuple):
    start: int
    end: int
    kind: str


def html_of(text: bytes) -> str:
    """Text as it stands, each part in another script kept from turning what is around it."""
    visible = escape(shown(decoded(text)), quote=False)
    return FOREIGN.sub(lambda found: f"<bdi>{found.group()}</bdi>", visible)


def marked_html(text: bytes, marks: Iterable[Mark], start: int = 0) -> str:
    """A part of a text that begins at the start, with the marks that are in it."""
    pieces: list[str] = []
    place = 0
    for mark in sorted(apart(marks)):
        first, last = mark.start - start, mark.end - start
        if place <= first and last <= len(text):
            pieces += [html_of(text[place:first]), element(text[first:last] or b" ", mark.kind)]
            place = last
    return "".join(pieces) + html_of(text[place:])


def element(text: bytes, kind: str) -> str:
    spoken = f'<span class="spoken"> ({kind}) </span>'
    return f'<span class="{kind}" title="{TITLES[kind]}">{html_of(text)}{spoken}</span>'


def apart(marks: Iterable[Mark]) -> list[Mark]:
    """The marks without those that overlap one before them."""
    kept: list[Mark] = []
    for mark in marks:
        if all(mark.end <= other.start or other.end <= mark.start for other in kept):
            kept.append(mark)
    return kept


def marks_of(answer: Answer) -> Iterator[Mark]:
    """Of the answer's whole text, in the order of their weight."""
    for last in (answer.verdict, answer.outcome):
        match last:
            case NoMatch(miss) | Sometimes(miss):
                yield mark_of(answer.sheet, miss.node, MISS)
            case Refusal():
                places = places_of(answer.sheet, last)
                yield from (mark_of(answer.sheet, node, PLACE) for node, _ in places)
            case Plan():
                roles = roles_of(answer.sheet, last)
                yield from (mark_of(answer.sheet, node, kind) for node, kind in roles)
    yield from (mark_of(answer.sheet, node, RANGE) for node in answer.sheet.ranges)


def mark_of(sheet: Sheet, number: int, kind: str) -> Mark:
    node = sheet.node(number)
    return Mark(node.start, node.end, kind)
