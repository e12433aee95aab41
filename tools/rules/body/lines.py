"""Reads a rule body, a line of rule text a line, into tables that its lines share."""

from codecs import BOM_UTF8
from collections.abc import Iterator
from dataclasses import dataclass, replace
from typing import NamedTuple

from rules.check.lines import place_of
from rules.question import Question, blamed, check_names
from rules.tables.sheet import RULE, Part, Sheet, Writer
from rules.text.rule_text import Operation, Rule, read_rule
from rules.text.source import column
from rules.text.tokens import COMMENT, RuleTextError


class BodyText(NamedTuple):
    """A line by its number in the file, its text, and how many blanks stand before it."""

    number: int
    text: bytes
    indent: int


class BodyTextError(RuleTextError):
    """A line that can't be read, its number in the file, and the column there."""

    def __init__(self, line: BodyText, error: RuleTextError) -> None:
        super().__init__(str(error), error.start, error.end)
        self.number, self.text = line.number, error.text
        self.column = line.indent + column(self.text, self.start)


@dataclass(frozen=True)
class BodyLine:
    """A line by its number in the file, and its sheet: the body's tables, its text and roots."""

    number: int
    sheet: Sheet

    def words(self) -> list[int]:
        """Operation and three roots."""
        return [self.sheet.operation, *self.sheet.roots]


@dataclass(frozen=True)
class Body:
    """The tables of all lines, and the lines."""

    tables: Sheet
    lines: list[BodyLine]


def read_body(content: bytes, question: Question) -> Body:
    """Blank lines and comments are passed over; an expression alone is an index."""
    tables = Sheet(b"", Operation.INDEX, question.scope())
    writer = Writer(tables)
    places = [written(writer, line) for line in texts_of(content)]
    check_names(tables, question)
    lines = []
    for number, part, operation, roots in places:
        sheet = replace(tables, parts=[part], operation=operation, roots=roots)
        lines.append(BodyLine(number, sheet))
    return Body(tables, lines)


def texts_of(content: bytes) -> Iterator[BodyText]:
    for number, text in enumerate(content.removeprefix(BOM_UTF8).splitlines(), 1):
        said = text[: place_of(COMMENT, text, 0)].strip()
        if said:
            yield BodyText(number, said, len(text) - len(text.lstrip()))


def written(
    writer: Writer, line: BodyText
) -> tuple[int, Part, Operation, tuple[int, int, int]]:
    """A line put into the tables."""
    number, text, _ = line
    try:
        with blamed("rule text", text, planned=True):
            rule = rule_of(text)
            part = writer.line(Part(RULE, writer.next_start(), text), rule)
    except RuleTextError as error:
        raise BodyTextError(line, error) from None
    return number, part, rule.operation, writer.sheet.roots


def rule_of(text: bytes) -> Rule:
    rule = read_rule(text)
    alone = rule.operation is Operation.PATTERN
    return replace(rule, operation=Operation.INDEX) if alone else rule
