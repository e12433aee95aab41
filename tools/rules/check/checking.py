"""Asks the planner each rule of a file and holds the answer against what is expected."""

from collections.abc import Iterator, Sequence
from dataclasses import dataclass, replace
from functools import cached_property, lru_cache

from rules.answer import Answer, Planner, ask
from rules.check.expectations import (
    Expected,
    Planned,
    agrees,
    asks_for_run,
    found_in_words,
    notes_not_expected,
    read_expected,
)
from rules.check.expected.places import column_of
from rules.check.lines import Line, Unreadable
from rules.check.parts import with_tally
from rules.no_answer import NoAnswer
from rules.options import question_from
from rules.question import Question
from rules.run.task import ONE_EXPRESSION
from rules.run.verdict import NotRun
from rules.text.source import column, decoded, shown
from rules.text.tokens import RuleTextError
from rules.words.notes import Note, notes_of

ONE_VALUE = "a line has one value: write a line for each"


@dataclass(frozen=True)
class Checked:
    """A line's answer, and whether it is the one that is expected; the folder of its file."""

    line: Line
    expected: Expected
    answer: Answer
    notes: list[Note]
    strict: bool
    folder: str = ""

    @cached_property
    def agrees(self) -> bool:
        met = agrees(self.expected, self.answer, self.notes)
        return met and not (self.strict and self.not_expected)

    @cached_property
    def not_expected(self) -> list[Note]:
        """The notes of which the line says nothing."""
        return notes_not_expected(self.expected, self.notes)

    def expected_words(self) -> str:
        return shown(decoded(self.line.expected.text))

    def found_words(self) -> str:
        # A plan where none was expected has all its notes.
        told = self.not_expected if isinstance(self.expected, Planned) else self.notes
        return found_in_words(self.expected, self.answer, self.notes, told if self.strict else [])


Result = Checked | Unreadable


def check(
    lines: Sequence[Line | Unreadable],
    planner: Planner,
    strict: bool = False,
    folder: str = "",
) -> Iterator[Result]:
    """With `strict` a note that isn't expected differs; files of parts stand in the folder."""
    for line in lines:
        yield checked(line, planner, strict, folder) if isinstance(line, Line) else line


def checked(line: Line, planner: Planner, strict: bool = False, folder: str = "") -> Result:
    try:
        expected = read_expected(line.expected.text)
    except RuleTextError as error:
        start = line.expected.start
        return blamed(line, str(error), start + error.start, start + error.end)
    try:
        question = question_of(line, asks_for_run(expected), folder)
        answer = with_tally(ask(question, planner), planner)
    except RuleTextError as error:
        message = f"bad {error.what}: {error}"
        place = column_of(line, error.text, error.start)
        return Unreadable(line.number, error.text, message, error.start, error.end, place)
    except NoAnswer as error:
        return blamed(line, str(error))
    if isinstance(answer.verdict, NotRun):
        return blamed(line, not_run_words(line, expected, answer.verdict))
    return Checked(line, expected, answer, notes_of(answer, planner), strict, folder)


def not_run_words(line: Line, expected: Expected, verdict: NotRun) -> str:
    if verdict.words != ONE_EXPRESSION or not asks_for_run(expected):
        return verdict.words
    return f"`{shown(decoded(line.expected.text))}` is the answer of a run: add --on VALUE"


def blamed(line: Line, message: str, start: int = 0, end: int = 0) -> Unreadable:
    """A line that can't be read, by a part of it or as a whole."""
    place = column(line.text, start)
    return Unreadable(line.number, line.text, shown(message), start, end or len(line.text), place)


def question_of(line: Line, run: bool, folder: str = "") -> Question:
    """What a line asks; an assignment is run as it stands if a run's answer is expected."""
    if line.own.count("--on") > 1:
        raise NoAnswer(ONE_VALUE)
    question = options_question(line.shared + line.own)
    own = options_question(line.own)
    shared = (question.named.keys() | question.given.keys()) - own.named.keys() - own.given.keys()
    run = question.run or (run and question.on is None and question.parts is None)
    parts = question.parts.beside(folder) if question.parts else None
    rule = line.rule.text
    return replace(question, rule=rule, run=run, perhaps=frozenset(shared), parts=parts)


@lru_cache(maxsize=1024)
def options_question(options: tuple[str, ...]) -> Question:
    """A question without its rule: most lines of a file have the same options."""
    return question_from(list(options), b"")
