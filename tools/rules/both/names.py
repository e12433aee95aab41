"""Whose name an option of --both speaks of: 1:w is w of the first pattern, 2:w of the second."""

import argparse
from collections.abc import Iterator
from dataclasses import replace

from rules.no_answer import NoAnswer
from rules.options import question_of
from rules.question import TAKEN_WHOLE, WILDCARD_GIVEN, Question, blamed, sheet_for
from rules.tables.sheet import WILDCARD
from rules.text.rule_text import Operation
from rules.text.source import decoded, shown

SIDES = ("first", "second")
NUMBERS = (b"1", b"2")
SIGN = b":"


def full_name(place: int, name: bytes) -> bytes:
    return NUMBERS[place] + SIGN + name


def questions_of(options: argparse.Namespace, patterns: list[bytes]) -> list[Question]:
    """A question for each pattern, with what the options say of its names."""
    both = question_of(options, b"")
    bare = Question(b"", scheduler=both.scheduler, scoping=both.scoping)
    if both != replace(bare, marks=both.marks, named=both.named, given=both.given):
        raise NoAnswer(
            "--both PATTERN PATTERN takes --bound and the other marks, --given, --scheduler,"
            " --scoping and --json alone"
        )
    names = [names_of(place, pattern) for place, pattern in enumerate(patterns)]
    questions = [replace(bare, rule=pattern) for pattern in patterns]
    for option, said in options_of(both):
        place, name = whose(option, said, names)
        questions[place] = with_name(questions[place], name, both, said)
    return questions


def names_of(place: int, pattern: bytes) -> set[bytes]:
    """The names of a pattern, which has to be one expression."""
    side = SIDES[place]
    with blamed(f"{side} pattern", pattern):
        sheet = sheet_for(Question(pattern))
    if sheet.operation is not Operation.PATTERN:
        raise NoAnswer(
            f"--both takes two patterns; the {side} is a rule with =, := or some: give its pattern"
        )
    return set(sheet.names)


def options_of(both: Question) -> Iterator[tuple[str, bytes]]:
    """Each name as the options have it, and the first option that has it."""
    yield from ((option, said) for said, option in both.named.items())
    yield from (("--given", said) for said in both.given if said not in both.named)


def whose(option: str, said: bytes, names: list[set[bytes]]) -> tuple[int, bytes]:
    """The place of the pattern that is meant, by its number or because it alone has the name."""
    number, sign, name = (part.strip() for part in said.rpartition(SIGN))
    if sign and number not in NUMBERS:
        raise NoAnswer(f"{option}: 1:NAME or 2:NAME is asked for, found `{shown(decoded(said))}`")
    meant = [place for place in (0, 1) if not sign or NUMBERS[place] == number]
    having = [place for place in meant if name in names[place]]
    text = shown(decoded(name))
    if len(having) > 1:
        raise NoAnswer(
            f"{option}: both patterns have a name `{text}`, and these are two names:"
            f" say 1:{text} or 2:{text}"
        )
    if not having:
        none = f"the {SIDES[meant[0]]} pattern has no" if sign else "neither pattern has a"
        raise NoAnswer(f"{option}: {none} name `{text}` {TAKEN_WHOLE}")
    return having[0], name


def with_name(question: Question, name: bytes, both: Question, said: bytes) -> Question:
    """A pattern's question with what the options say of one of its names."""
    if said in both.named:
        marks = question.marks.get(name, 0) | both.marks[said]
        named = {**question.named, name: both.named[said]}
        question = replace(question, marks={**question.marks, name: marks}, named=named)
    if said not in both.given:
        return question
    if name == WILDCARD:
        raise NoAnswer(WILDCARD_GIVEN)
    if name in question.given:
        raise NoAnswer(f"--given: `{shown(decoded(name))}` is given twice to one pattern")
    return replace(question, given={**question.given, name: both.given[said]})
