"""The two patterns of --both, in tables that they share."""

import argparse
import os
from dataclasses import dataclass, replace

from rules.both.names import SIDES, full_name, questions_of
from rules.no_answer import NoAnswer
from rules.question import Question, blamed
from rules.tables.library import LentSide
from rules.tables.sheet import GIVEN, Part, Scope, Sheet, Writer
from rules.text.ranges import read_value
from rules.text.rule_text import Operation, read_rule
from rules.text.source import decoded


@dataclass(frozen=True)
class Side:
    """A pattern with its options; the tables, with its scope and the values given; its root."""

    place: int
    question: Question
    tables: Sheet
    root: int

    def said(self) -> str:
        return SIDES[self.place]

    def is_known(self, name: bytes) -> bool:
        return self.tables.scope.is_known(name, self.tables.scope.scoping)

    def lent(self) -> LentSide:
        scope, names = self.tables.scope, self.tables.names
        marks = [scope.marks.get(name, 0) for name in names]
        values = [self.tables.given.get(name, 0) for name in names]
        return LentSide(marks, scope.scheduler, scope.scoping, self.root, values)


def read_sides(options: argparse.Namespace) -> list[Side]:
    """Both sides; their tables differ in scope and values given alone."""
    questions = questions_of(options, [os.fsencode(text) for text in options.both])
    tables = Sheet(b"", Operation.PATTERN, Scope())
    writer = Writer(tables)
    roots = [pattern_root(writer, place, question) for place, question in enumerate(questions)]
    given = [given_nodes(writer, place, question) for place, question in enumerate(questions)]
    if tables.ranges:
        raise NoAnswer("--given: an example is exact, so --both takes no range such as 17..19")
    return [
        Side(place, question, replace(tables, scope=question.scope(), given=nodes), root)
        for place, (question, root, nodes) in enumerate(zip(questions, roots, given))
    ]


def pattern_root(writer: Writer, place: int, question: Question) -> int:
    """The root of a pattern that is put into the tables."""
    part = Part(SIDES[place], writer.next_start(), question.rule)
    writer.line(part, read_rule(question.rule))
    return writer.sheet.roots[0]


def given_nodes(writer: Writer, place: int, question: Question) -> dict[bytes, int]:
    """The nodes of the values given, by name."""
    nodes = {}
    for name, text in question.given.items():
        whose = full_name(place, name)
        with blamed(f"value of `{decoded(whose)}`", text):
            part = Part(GIVEN, writer.next_start(), text, whose)
            nodes[name] = writer.more(part, read_value(text))
    return nodes
