"""What is expected of a plan beside its form: names that are bound, compared or read, and notes."""

from collections.abc import Iterator, Sequence
from typing import NamedTuple

from rules.run.roles import BOUND, COMPARED, names_by_role
from rules.tables.listing import Plan
from rules.tables.sheet import Sheet
from rules.text.source import decoded
from rules.text.tokens import TOKEN, RuleTextError, TokenKind
from rules.words.notes import Note, NoteKind

BINDS = "binds"
COMPARES = "compares"
READS = NoteKind.READS.value
WHOLE = NoteKind.WHOLE.value
NEVER = NoteKind.NEVER.value
OF_NAMES = (BINDS, COMPARES, READS)
NOTHING = "nothing"
MAY_STAND = (
    "behind a form may stand: binds NAME, compares NAME, reads NAME, each once for every place,"
    " or `nothing` as the name; whole; never"
)


class Clause(NamedTuple):
    """A word, and the name that it is about; none of a word that could have names."""

    word: str
    name: bytes = b""

    def in_words(self) -> str:
        none = NOTHING if self.word in OF_NAMES else ""
        return f"{self.word} {decoded(self.name) or none}".rstrip()


def read_clauses(text: bytes, start: int) -> tuple[Clause, ...]:
    """Those that stand in a text from a place on, parted by commas."""
    clauses = []
    for part in text[start:].split(b","):
        words = part.split()
        word = decoded(words[0]) if words else ""
        if word in OF_NAMES and len(words) == 2 and is_name(words[1]):
            clauses.append(Clause(word, b"" if words[1] == NOTHING.encode() else words[1]))
        elif word in (WHOLE, NEVER) and len(words) == 1:
            clauses.append(Clause(word))
        else:
            raise RuleTextError(MAY_STAND, start, len(text))
    return tuple(clauses)


def is_name(word: bytes) -> bool:
    found = TOKEN.fullmatch(word)
    return found is not None and found.lastgroup == TokenKind.NAME.value


def clauses_of(sheet: Sheet, plan: Plan, notes: Sequence[Note]) -> Iterator[Clause]:
    """All that hold of a plan."""
    yield from named(BINDS, names_by_role(sheet, plan, BOUND))
    yield from named(COMPARES, names_by_role(sheet, plan, COMPARED))
    reads = [note for note in notes if note.kind is NoteKind.READS]
    yield from named(READS, [sheet.text[note.start : note.end] for note in reads])
    yield from (Clause(note.kind.value) for note in notes if note.kind is not NoteKind.READS)


def named(word: str, names: Sequence[bytes]) -> list[Clause]:
    return [Clause(word, name) for name in names or [b""]]


def are_met(expected: Sequence[Clause], found: Sequence[Clause]) -> bool:
    """Of each word that is said: as often, and in the same order."""
    return all(of_word(word, expected) == of_word(word, found) for word, _ in expected)


def of_word(word: str, clauses: Sequence[Clause]) -> list[Clause]:
    return [clause for clause in clauses if clause.word == word]


def shown_clauses(
    expected: Sequence[Clause], found: Sequence[Clause], notes: Sequence[Note]
) -> list[Clause]:
    """Those of the words that are said, and of these notes."""
    words = {clause.word for clause in expected} | {note.kind.value for note in notes}
    return [clause for clause in found if clause.word in words]


def unexpected(expected: Sequence[Clause], notes: Sequence[Note]) -> list[Note]:
    """The notes of whose kind nothing is said."""
    words = {clause.word for clause in expected}
    return [note for note in notes if note.kind.value not in words]
