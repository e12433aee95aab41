"""What a check of a file says: each line that differs or can't be read, then a tally."""

from collections.abc import Sequence
from typing import NamedTuple

from rules.answer import Answer
from rules.check.checking import Checked, Result
from rules.check.expectations import looked_at
from rules.check.expected.places import column_in
from rules.check.lines import Unreadable
from rules.parts.tally import PartsTally
from rules.run.verdict import Match, NoMatch, Sometimes
from rules.tables.listing import Plan, Refusal
from rules.tables.places import marked_place
from rules.tables.sheet import RULE, Sheet
from rules.text.source import CUT, LONGEST_LINE, below, column, decoded, shown
from rules.words.notes import Note
from rules.words.refusals import title_in_words


class Tally(NamedTuple):
    """How many rules have an answer, and how many of these differ; notes that no line expects;
    compares that no line would miss; lines that can't be read."""

    rules: int
    differ: int
    notes: int
    untested: int
    unreadable: int

    def in_words(self) -> str:
        differ = f"{self.differ} {'differs' if self.differ == 1 else 'differ'}"
        words = f"{counted(self.rules, 'rule')}, {differ}"
        if self.notes:
            words += f", {counted(self.notes, 'note')}"
        if self.untested:
            words += f", {counted(self.untested, 'compare')} not tested"
        if self.unreadable:
            words += f", {counted(self.unreadable, 'line')} can't be read"
        return words


def counted(count: int, what: str) -> str:
    return f"{count} {what}" if count == 1 else f"{count} {what}s"


def tally_of(results: Sequence[Result], untested: int = 0) -> Tally:
    checked = [result for result in results if isinstance(result, Checked)]
    differ = sum(not result.agrees for result in checked)
    notes = sum(len(result.not_expected) for result in checked)
    return Tally(len(checked), differ, notes, untested, len(results) - len(checked))


class Telling(NamedTuple):
    """Something to tell of a line: at which column, what, and the text below it."""

    number: int
    column: int
    message: str
    text: str

    def in_words(self) -> str:
        below = f"\n{self.text}" if self.text else ""
        return f"{self.number}:{self.column}: {self.message}{below}"


def tellings(result: Result, notes: bool = False) -> list[Telling]:
    """Nothing of a rule whose answer is the one that is expected, but its notes."""
    if isinstance(result, Unreadable):
        return [unreadable_telling(result)]
    told = [] if result.agrees else [difference(result)]
    return told + [note_telling(result, note) for note in result.not_expected if notes]


def unreadable_telling(line: Unreadable) -> Telling:
    text = below(line.text, line.start, line.end).removeprefix("\n")
    return Telling(line.number, line.column, line.message, text)


def difference(result: Checked) -> Telling:
    """The rule's text, and the place of what was found: a refusal, a miss or a note."""
    line, sheet = result.line, result.answer.sheet
    message = f"expected {result.expected_words()}, found {result.found_words()}"
    place = found_place(result)
    text = f"    {line_shown(line.rule.text)}"
    if place is None:
        said = [f"    on {line_shown(value_text(result))}"] if is_match(result) else []
        text = "\n".join([text, *said, *told_of_parts(result.answer)])
        return Telling(line.number, column(line.text, line.expected.start), message, text)
    mark = marked_place(sheet, place.start, place.end, place.words)
    in_rule = sheet.part_of(place.start).what == RULE
    at = column_in(line, sheet, place.start)
    return Telling(line.number, at, message, mark if in_rule else f"{text}\n{mark}")


class Found(NamedTuple):
    """A place of the tables' text, and what is said of it."""

    words: str
    start: int
    end: int


def found_place(result: Checked) -> Found | None:
    sheet = result.answer.sheet
    match looked_at(result.expected, result.answer):
        case NoMatch(miss) | Sometimes(miss):
            return found_at(sheet, miss.node, miss.words)
        case Refusal(place=place) as refusal if place:
            return found_at(sheet, place, title_in_words(sheet, refusal))
        case Plan() if result.strict and result.not_expected:
            note = result.not_expected[0]
            return Found(note.words, note.start, note.end)
        case _:
            return None


def found_at(sheet: Sheet, number: int, words: str) -> Found:
    node = sheet.node(number)
    return Found(words, node.start, node.end)


def is_match(result: Checked) -> bool:
    verdict = looked_at(result.expected, result.answer)
    return isinstance(verdict, Match) and result.answer.sheet.value != 0


def value_text(result: Checked) -> bytes:
    """The text of the value that a rule was run on."""
    sheet = result.answer.sheet
    return sheet.part_of(sheet.node(sheet.value).start).text


def note_telling(result: Checked, note: Note) -> Telling:
    sheet, line = result.answer.sheet, result.line
    text = marked_place(sheet, note.start, note.end, "")
    at = column_in(line, sheet, note.start)
    return Telling(line.number, at, f"note: {note.words}", text)


def told_of_parts(answer: Answer) -> list[str]:
    told = answer.verdict.told if isinstance(answer.verdict, PartsTally) else []
    return [f"    {line}" for line in told]


def line_shown(text: bytes) -> str:
    whole = shown(decoded(text))
    return whole if len(whole) <= LONGEST_LINE else whole[:LONGEST_LINE] + CUT
