"""Notes on an accepted rule: it reads a name without a value, is no pattern, or never matches."""

from enum import Enum
from typing import NamedTuple

from rules.answer import Answer, Planner
from rules.run.reads import Read, reads_without_value
from rules.run.steps import as_it_stands
from rules.run.task import ASSIGNMENTS
from rules.run.verdict import NOT_A_VALUE, NO_VALUE_OF_NAME, NoMatch
from rules.tables.library import Library
from rules.tables.listing import Plan, RunRefusal
from rules.tables.places import marked_place, node_text
from rules.tables.sheet import Sheet
from rules.text.rule_text import Kind, Operation

AS_VALUE = "is read here, and nothing gives it a value"
AS_KEY = "is read as a key, and nothing gives it a value before the pattern is matched"
# A rule that is no pattern.
WHOLE = {
    Kind.OTHER: "this is one expression, compared whole; nothing in it is planned or checked",
    Kind.SET: "this set is compared whole; nothing in it is bound",
}


class Never(NamedTuple):
    """Why, and the node that it is about."""

    node: int
    words: str


class NoteKind(Enum):
    READS = "reads"
    WHOLE = "whole"
    NEVER = "never"


class Note(NamedTuple):
    """What is to be noted, and the bytes of the sheet's text that it is about."""

    kind: NoteKind
    words: str
    start: int
    end: int


def notes_of(answer: Answer, planner: Planner) -> list[Note]:
    """None on a rule that is refused; a planner that runs nothing can't tell what never matches."""
    if not isinstance(answer.outcome, Plan):
        return []
    sheet = answer.sheet
    reads = reads_without_value(sheet, answer.outcome)
    notes = [read_note(sheet, read) for read in reads if read.node != said_without_value(answer)]
    notes += whole_notes(sheet)
    # The verdict of a run has said it.
    never = never_of(answer, planner) if planner.runs and answer.task is None else None
    return notes + ([never_note(sheet, never)] if never else [])


def said_without_value(answer: Answer) -> int:
    """The name of which the refusal of a run has said it, or 0."""
    verdict = answer.verdict
    said = isinstance(verdict, RunRefusal) and verdict.number in (NOT_A_VALUE, NO_VALUE_OF_NAME)
    return verdict.place if said else 0


def read_note(sheet: Sheet, read: Read) -> Note:
    words = AS_KEY if read.as_key else AS_VALUE
    said = f"`{node_text(sheet, read.node)}` {words}"
    return note_at(sheet, read.node, NoteKind.READS, said)


def whole_notes(sheet: Sheet) -> list[Note]:
    """Of one expression that is no pattern."""
    first, second, _ = sheet.roots
    words = WHOLE.get(sheet.node(first).kind)
    return [note_at(sheet, first, NoteKind.WHOLE, words)] if words and second == 0 else []


def never_of(answer: Answer, library: Library) -> Never | None:
    """None also where the run is refused, or an item of a collection is."""
    sheet, plan = answer.sheet, answer.outcome
    if sheet.operation not in (*ASSIGNMENTS, Operation.SOME_IN) or answer.question.parts:
        return None
    ran = as_it_stands(sheet, plan, library, answer.question.entries)
    if not isinstance(ran.verdict, NoMatch):
        return None
    miss = ran.verdict.miss
    several = sheet.operation is Operation.SOME_IN and len(ran.steps) > 1
    words = f"no item does; in the first {miss.words}" if several else miss.words
    # A key's own node is none of the rule's.
    return Never(miss.node if miss.node <= len(sheet.nodes) else sheet.roots[1], words)


def never_note(sheet: Sheet, never: Never) -> Note:
    given = "with the values given " if sheet.given else ""
    said = f"{given}this rule never matches: {never.words}"
    return note_at(sheet, never.node, NoteKind.NEVER, said)


def note_at(sheet: Sheet, number: int, kind: NoteKind, words: str) -> Note:
    node = sheet.node(number)
    return Note(kind, words, node.start, node.end)


def notes_in_words(sheet: Sheet, notes: list[Note]) -> str:
    return "".join(
        f"note: {note.words}\n{marked_place(sheet, note.start, note.end, '')}\n" for note in notes
    )
