"""A value that a pattern has to turn back, and that passes with `_` in a place of it."""

import shlex
from collections.abc import Iterator
from dataclasses import replace
from types import UnionType

from rules.answer import Planner, ask
from rules.check.checking import Checked, checked, question_of
from rules.check.lines import read_line
from rules.check.weak.places import Tested, Weak, items_below, parts_below, pattern_of
from rules.no_answer import NoAnswer
from rules.question import Question
from rules.run.values import names_below
from rules.run.verdict import Match, NoMatch, Sometimes
from rules.tables.sheet import WILDCARD, Sheet
from rules.text.rule_text import LITERALS, Kind, Operation
from rules.text.source import decoded
from rules.text.tokens import RuleTextError

# Where any value will do, and where another than a known one is sought.
ANY = b"null"
OTHERS = (b"1", b"2", b'"other"')
# The options that say what is run, and those of a line that have an argument behind them.
OF_RUNS = ("--on", "--run", "--parts", "--open", "--scale")
WITH_ARGUMENT = ("--on", "--parts", "--scale", "--given")
# An 18 mm side beside a 16 mm side.
THINNER = 2


def missing_line(weak: Weak, planner: Planner) -> str:
    """A line for the file that would notice, found by running; nothing where none is found."""
    for tested in weak.lines:
        value = missing_value(tested, weak, planner)
        line = " ".join(said(tested, value)) if value else ""
        if line and is_met(line, tested, planner):
            return line
    return ""


def is_met(text: str, tested: Tested, planner: Planner) -> bool:
    """Whether a line holds below the options that the tested one stands below."""
    try:
        line = read_line(1, text.encode(errors="surrogateescape"), tested.result.line.shared)
    except RuleTextError:
        return False
    found = checked(line, planner, folder=tested.result.folder)
    return isinstance(found, Checked) and found.agrees


def missing_value(tested: Tested, weak: Weak, planner: Planner) -> bytes:
    """A value on which the pattern doesn't match, and does, or may, with `_` in the place."""
    for value in values_with_another(tested, weak):
        full = question_for(tested, value)
        pattern = full.rule
        weakened = pattern[: weak.place.start] + WILDCARD + pattern[weak.place.end :]
        if answers(full, NoMatch, planner):
            if answers(replace(full, rule=weakened), Match | Sometimes, planner):
                return value
    return b""


def answers(question: Question, verdict: type | UnionType, planner: Planner) -> bool:
    try:
        return isinstance(ask(question, planner).verdict, verdict)
    except (NoAnswer, RuleTextError):
        return False


def question_for(tested: Tested, value: bytes) -> Question:
    """What a line asks, of its pattern alone and on this value."""
    line, sheet = tested.result.line, tested.result.answer.sheet
    question = question_of(line, run=False)
    names = frozenset(question.named) | frozenset(question.given)
    shadow = sheet.operation is Operation.COLON_EQUALS
    return replace(
        question,
        rule=line.rule.text[tested.start : tested.end],
        on=value,
        run=False,
        parts=None,
        scoping="shadow" if shadow else question.scoping,
        perhaps=names,
    )


def values_with_another(tested: Tested, weak: Weak) -> Iterator[bytes]:
    """Values of the pattern's shape, with another part than the right one in the place."""
    answer = tested.result.answer
    root = pattern_of(answer)
    texts = texts_of_names(tested)
    place = next(node for node in parts_below(answer.sheet, root) if is_at(tested, weak, node))
    right = filled(answer.sheet, place, texts, {})
    for other in others(right):
        yield filled(answer.sheet, root, texts, {place: other})


def is_at(tested: Tested, weak: Weak, number: int) -> bool:
    node = tested.result.answer.sheet.node(number)
    place = node.start - tested.start, node.end - tested.start
    return place == weak.place


def texts_of_names(tested: Tested) -> dict[bytes, bytes]:
    """Values for the names: those of a match, those given, and else a number for each."""
    answer = tested.result.answer
    sheet = answer.sheet
    set_by_run = answer.verdict.values if isinstance(answer.verdict, Match) else {}
    known = sheet.given | set_by_run
    names = dict.fromkeys(map(sheet.name_of, names_below(sheet, pattern_of(answer))))
    return {
        name: text_of(sheet, known[name]) if name in known else str(number).encode()
        for number, name in enumerate(names, 1)
    }


def text_of(sheet: Sheet, number: int) -> bytes:
    """A value's text; of a measured number its lowest."""
    if number in sheet.ranges:
        return str(sheet.ranges[number].lowest).encode()
    node = sheet.node(number)
    return sheet.text[node.start : node.end]


def filled(
    sheet: Sheet, number: int, names: dict[bytes, bytes], others: dict[int, bytes]
) -> bytes:
    """The text of a value for a pattern: its names filled in, other parts in their places."""
    node = sheet.node(number)
    if number in others:
        return others[number]
    if node.kind is Kind.NAME:
        name = sheet.name_of(number)
        return ANY if name == WILDCARD else names[name]
    if node.kind in LITERALS:
        return sheet.text[node.start : node.end]
    items = [filled(sheet, item, names, others) for item in items_below(sheet, number)]
    if node.kind is Kind.ARRAY:
        return b"[" + b", ".join(items) + b"]"
    keys = [text_of(sheet, key) for key in sheet.items_of(number)[::2]]
    return b"{" + b", ".join(key + b": " + item for key, item in zip(keys, items)) + b"}"


def others(right: bytes) -> Iterator[bytes]:
    """Values that are most likely not this one."""
    if right.isdigit() and int(right) > THINNER:
        yield str(int(right) - THINNER).encode()
    yield from OTHERS


def said(tested: Tested, value: bytes) -> list[str]:
    """The line: the pattern, what is expected, the value and the line's own options."""
    pattern = decoded(question_for(tested, value).rule)
    shadow = ["--scoping", "shadow"] if shadows(tested) else []
    options = [*without_run(tested), *shadow]
    return [f"{pattern} => no match", shlex.join(["--on", decoded(value), *options])]


def without_run(tested: Tested) -> list[str]:
    """The line's own options without those that say what is run, or what its value side has."""
    options = iter(tested.result.line.own)
    kept: list[str] = []
    for option in options:
        name, sign, text = option.partition("=")
        said = [option] if sign or name not in WITH_ARGUMENT else [option, next(options, "")]
        elsewhere = name == "--given" and is_elsewhere(tested, text or said[-1])
        if name not in OF_RUNS and not elsewhere:
            kept += said
    return kept


def is_elsewhere(tested: Tested, given: str) -> bool:
    """Whether NAME=VALUE gives a name its value that the pattern hasn't."""
    sheet = tested.result.answer.sheet
    names = map(sheet.name_of, names_below(sheet, pattern_of(tested.result.answer)))
    return given.partition("=")[0].strip().encode(errors="surrogateescape") not in names


def shadows(tested: Tested) -> bool:
    """Whether names of the options would be known in the pattern alone."""
    question = question_of(tested.result.line, run=False)
    colon_equals = tested.result.answer.sheet.operation is Operation.COLON_EQUALS
    return colon_equals and bool(question.marks or question.given)
