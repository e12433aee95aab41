"""A line of a file on the page: the rule's text with marks, the answer, the plan beside it."""

import shlex
from collections.abc import Iterable, Iterator, Sequence

from rules.answer import Answer
from rules.check.checking import Checked
from rules.check.lines import Line, Unreadable
from rules.check.page.marks import PLACE, Mark, html_of, marked_html, marks_of
from rules.parts.tally import PartsTally
from rules.run.verdict import NoMatch, Sometimes
from rules.tables.listing import Refusal
from rules.tables.places import node_text
from rules.tables.sheet import GIVEN, KEY, RULE, VALUE, Sheet
from rules.text.source import decoded
from rules.words.conclusions import conclusions_of
from rules.words.notes import Note
from rules.words.plans import Row, form_in_words, rows_of
from rules.words.refusals import counts_in_words, meaning_in_words, places_of
from rules.words.verdicts import choices_in_words, step_line

CARD = """\
<article class="rule {status}" id="line-{number}">
<h3><a href="#line-{number}">line {number}</a> <strong>{said}</strong></h3>
{content}</article>
"""
VALUES = ("--on", "--given")
SAID = {
    "differs": "\u2717 differs",
    "unreadable": "\u2717 can\u2019t be read",
    "agrees": "\u2713 as expected",
}


def card(status: str, number: int, content: str) -> str:
    return CARD.format(status=status, number=number, said=SAID[status], content=content)


def unreadable_card(line: Unreadable) -> str:
    text = marked_html(line.text, [Mark(line.start, line.end, PLACE)])
    content = f"<div>\n{text_in_html(text)}<p>{in_html(line.message)}</p>\n</div>\n"
    return card("unreadable", line.number, content)


def rule_card(result: Checked) -> str:
    answer = [options(result.line), answer_list(result), *map(note, result.notes)]
    said = "".join([*texts(result.answer, result.notes), *answer])
    content = f'<div>\n{said}</div>\n<div class="plan">\n{plan(result.answer)}</div>\n'
    return card("agrees" if result.agrees else "differs", result.line.number, content)


def in_html(words: str) -> str:
    return html_of(words.encode(errors="surrogateescape"))


def text_in_html(text: str, label: str = "") -> str:
    return f'<p class="text">{label}<code>{text}</code></p>\n'


def texts(answer: Answer, notes: Sequence[Note]) -> Iterator[str]:
    """The parts of the text: the rule, then the value and what is given to names."""
    marks = [*marks_of(answer), *(Mark(note.start, note.end, PLACE) for note in notes)]
    for part in answer.sheet.parts:
        given = f"given {decoded(part.name)} = "
        label = {RULE: "", VALUE: "on ", GIVEN: given, KEY: "key "}[part.what]
        yield text_in_html(marked_html(part.text, marks, part.start), in_html(label))


def options(line: Line) -> str:
    """The options of a line, without those that give the texts of values."""
    said = list(line.shared + line.own)
    for option in VALUES:
        while option in said:
            place = said.index(option)
            del said[place : place + 2]
    return f"<p>with <code>{in_html(shlex.join(said))}</code></p>\n" if said else ""


def answer_list(result: Checked) -> str:
    rows = {"expected": result.expected_words(), "found": result.found_words()}
    items = "".join(f"<dt>{term}</dt><dd>{in_html(words)}</dd>\n" for term, words in rows.items())
    return f"<dl>\n{items}</dl>\n"


def note(note: Note) -> str:
    return f'<p class="note">note: {in_html(note.words)}</p>\n'


def plan(answer: Answer) -> str:
    """The plan as a list, or why there is none; then what a run came to."""
    sheet, outcome = answer.sheet, answer.outcome
    if isinstance(outcome, Refusal):
        return refusal(sheet, outcome)
    form = f"<p>planned as {in_html(form_in_words(sheet, outcome))}</p>\n"
    steps = "".join(f"<p>{in_html(step_line(step))}</p>\n" for step in answer.steps)
    return form + plan_list(rows_of(sheet, outcome)) + (steps or verdict(answer))


def verdict(answer: Answer) -> str:
    match answer.verdict:
        case NoMatch(miss) as found:
            return f"<p>{found.said}: {in_html(miss.words)}</p>\n"
        case Sometimes(undecided) as found:
            lines = [f"sometimes: {undecided.words}", *choices_in_words(answer.sheet, found)]
            return "".join(f"<p>{in_html(line.strip())}</p>\n" for line in lines)
        case Refusal() as refused:
            return refusal(answer.sheet, refused)
        case PartsTally() as tally:
            return "".join(f"<p>{in_html(line)}</p>\n" for line in [tally.in_words(), *tally.told])
        case _:
            return ""


def refusal(sheet: Sheet, refused: Refusal) -> str:
    places = [f"{label}: {node_text(sheet, node)}" for node, label in places_of(sheet, refused)]
    follows = [
        f"{words}: {node_text(sheet, node)}" if node else words
        for words, node in conclusions_of(sheet, refused)
    ]
    lines = [meaning_in_words(refused), *places, *counts_in_words(sheet, refused), *follows]
    return "".join(f"<p>{in_html(line)}</p>\n" for line in lines)


def plan_list(rows: Iterable[Row]) -> str:
    """Rows as lists in lists, by their depth."""
    pieces: list[str] = []
    above = -1
    for column, depth, words in rows:
        pieces.append("<ul>\n" if depth > above else "</li>\n" + "</ul>\n</li>\n" * (above - depth))
        pieces.append(f"<li>{in_html(words)} <small>column {column}</small>")
        above = depth
    return "".join(pieces) + "</li>\n</ul>\n" * (above + 1)
