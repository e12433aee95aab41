"""What a line of a file of rules expects, and whether an answer is that."""

from collections.abc import Mapping, Sequence
from dataclasses import dataclass, field, replace

from rules.answer import Answer
from rules.check.expected.clauses import (
    Clause,
    are_met,
    clauses_of,
    read_clauses,
    shown_clauses,
    unexpected,
)
from rules.check.expected.near import did_you_mean
from rules.check.parts import Counted, is_counted, read_counted, tally_of_items
from rules.parts.tally import PartsTally
from rules.run.measuring import pairs_of
from rules.run.values import no_value
from rules.run.verdict import Match, NoMatch, Sometimes, Verdict
from rules.tables.listing import Plan, Refusal
from rules.tables.places import node_text
from rules.tables.sheet import Scope, Sheet, Writer, range_of, sheet_of
from rules.text.ranges import ValueReader, check_keys, read_value
from rules.text.rule_text import Operation, Reader, Rule
from rules.text.source import decoded
from rules.text.tokens import RuleTextError, TokenKind
from rules.words.notes import Note
from rules.words.plans import FORMS, form_of
from rules.words.refusals import MEANINGS

OF_RUNS = (20, 21, 22, 23, 32)

FORM_NAMES = [form.full_name() for forms in FORMS.values() for form in forms.values()]
EXPECTED = (
    f"what may be expected: planned, {', '.join(FORM_NAMES)},"
    " refused NUMBER, match, match NAME=VALUE, .., no match, always, sometimes or never; of parts"
    " all match, none match or NUMBER match"
)
OF_VERDICTS = ("match", "no match", "always", "sometimes", "never")
KNOWN = ("planned", *FORM_NAMES, "refused", *OF_VERDICTS)


@dataclass(frozen=True)
class Planned:
    """Planned in a form, or in any, and what is said beside it."""

    form: str | None = None
    clauses: tuple[Clause, ...] = ()


@dataclass(frozen=True)
class Refused:
    """Refused by the planner or by the run, at a place with this text if one is said."""

    number: int
    at: bytes | None = None


@dataclass(frozen=True)
class Matched:
    """A match that gives these names values equal to these; of other names nothing is said."""

    values: Mapping[bytes, bytes] = field(default_factory=dict)


@dataclass(frozen=True)
class NotMatched:
    """No match."""


@dataclass(frozen=True)
class Undecided:
    """A match for some of the measured numbers."""


Expected = Planned | Refused | Matched | NotMatched | Undecided | Counted


def asks_for_run(expected: Expected) -> bool:
    match expected:
        case Refused(number):
            return number in OF_RUNS
        case _:
            return not isinstance(expected, Planned)


def read_expected(text: bytes) -> Expected:
    """What stands behind `=>`, up to the options."""
    words = text.split()
    said = b" ".join(words).decode(errors="replace")
    form, comma, _ = text.partition(b",")
    form_said = b" ".join(form.split()).decode(errors="replace")
    if form_said in ("planned", *FORM_NAMES):
        clauses = read_clauses(text, len(form) + 1) if comma else ()
        return Planned(None if form_said == "planned" else form_said, clauses)
    if said in ("no match", "never"):
        return NotMatched()
    if said == "sometimes":
        return Undecided()
    counted = read_counted(words)
    if counted:
        return counted
    match words[:1]:
        case [b"refused"]:
            return read_refused(text)
        case [b"match" | b"always"]:
            return Matched(read_values(text))
        case _:
            raise RuleTextError(did_you_mean(said, KNOWN) or EXPECTED, 0, len(text))


def read_refused(text: bytes) -> Refused:
    """`refused NUMBER` or `refused NUMBER at TEXT`."""
    words = text.split(maxsplit=3)
    number = int(words[1]) if words[1:] and words[1].isdigit() else 0
    if number not in MEANINGS:
        numbers = ", ".join(map(str, sorted(MEANINGS)))
        raise RuleTextError(f"the numbers of refusals are {numbers}", 0, len(text))
    match words[2:]:
        case []:
            return Refused(number)
        case [b"at", place]:
            return Refused(number, place)
        case _:
            raise RuleTextError("behind the number may stand: at TEXT", 0, len(text))


def read_values(text: bytes) -> dict[bytes, bytes]:
    """The names and values of `match NAME=VALUE, ..`."""
    reader = ValueReader(text)
    reader.next()
    values: dict[bytes, bytes] = {}
    while reader.peek().kind is not TokenKind.END:
        if values:
            reader.expect(b",")
        name = reader.peek()
        if name.kind is not TokenKind.NAME or name.text in values:
            raise reader.error("expected a name that has not stood before")
        reader.next()
        reader.expect(b"=")
        values[name.text] = value_text(reader)
    return values


def value_text(reader: Reader) -> bytes:
    """The text of a value."""
    expression = reader.expression()
    check_keys(expression)
    sheet = sheet_of(Rule(reader.text, Operation.PATTERN, expression), Scope())
    fault = no_value(sheet, sheet.roots[0])
    if fault:
        _, start, end, *_ = sheet.node(fault.node)
        raise RuleTextError(f"here stands {fault.what}, which no value has", start, end)
    return reader.text[expression.start : expression.end]


def looked_at(expected: Expected, answer: Answer) -> Plan | Verdict | PartsTally | Refusal:
    """What is held against the expectation: the run's verdict, unless a plan is expected."""
    if isinstance(expected, Planned) or answer.verdict is None:
        return answer.outcome
    return answer.verdict


def agrees(expected: Expected, answer: Answer, notes: Sequence[Note] = ()) -> bool:
    match expected, looked_at(expected, answer):
        case Planned(form, clauses), Plan() as plan:
            found = list(clauses_of(answer.sheet, plan, notes))
            named = form_of(answer.sheet, plan).full_name()
            return form in (None, named) and are_met(clauses, found)
        case Refused(number, at), Refusal() as refusal:
            return number == refusal.number and is_at(at, answer.sheet, refusal.place)
        case Matched(values), Match():
            return any(gives(sheet, found, values) for sheet, found in matches_of(answer))
        case (NotMatched(), NoMatch()) | (Undecided(), Sometimes()):
            return True
        case Counted(), PartsTally() as tally:
            return is_counted(expected, tally)
        case Counted(), Match() | NoMatch() | Sometimes() if answer.is_by_item():
            return is_counted(expected, tally_of_items(answer))
        case _:
            return False


def matches_of(answer: Answer) -> list[tuple[Sheet, Match]]:
    """The match of a run, or of each item that matches."""
    by_item = answer.steps if answer.is_by_item() else [answer]
    return [(run.sheet, run.verdict) for run in by_item if isinstance(run.verdict, Match)]


def gives(sheet: Sheet, found: Match, values: Mapping[bytes, bytes]) -> bool:
    """A match that gives these names these values."""
    return all(
        name in found.values and is_equal(sheet, found.values[name], value)
        for name, value in values.items()
    )


def is_equal(sheet: Sheet, number: int, text: bytes) -> bool:
    """A node's value, ranges too, is that of the text, laid out behind a copy of the sheet."""
    both = replace(
        sheet,
        nodes=sheet.nodes.copy(),
        children=sheet.children.copy(),
        numbers=sheet.numbers.copy(),
        strings=sheet.strings.copy(),
        ranges=sheet.ranges.copy(),
        parts=sheet.parts.copy(),
    )
    Writer(both).value(text, read_value(text))
    pairs = pairs_of(both, number, both.value)
    return pairs is not None and all(
        range_of(both, left) == range_of(both, right) for left, right in pairs
    )


def is_at(text: bytes | None, sheet: Sheet, place: int) -> bool:
    """The place has this text; any will do where none is said."""
    if text is None or place == 0:
        return text is None
    _, start, end, *_ = sheet.node(place)
    return sheet.text[start:end] == text


def notes_not_expected(expected: Expected, notes: Sequence[Note]) -> list[Note]:
    """Those of a rule of which a plan is expected, and nothing is said of them."""
    return unexpected(expected.clauses, notes) if isinstance(expected, Planned) else []


def found_in_words(
    expected: Expected, answer: Answer, notes: Sequence[Note] = (), told: Sequence[Note] = ()
) -> str:
    """The answer, as a line would expect it, with these of its notes."""
    match looked_at(expected, answer):
        case Plan() as plan:
            found = list(clauses_of(answer.sheet, plan, notes))
            said = expected.clauses if isinstance(expected, Planned) else ()
            shown = [clause.in_words() for clause in shown_clauses(said, found, told)]
            return ", ".join([form_of(answer.sheet, plan).full_name(), *shown])
        case Match() | NoMatch() | Sometimes() if answer.is_by_item():
            return tally_of_items(answer).found()
        case Match(values) as found:
            said = (f"{decoded(name)}={node_text(answer.sheet, values[name])}" for name in values)
            return f"{found.said} {', '.join(said)}".rstrip()
        case Refusal(number, place):
            at = f" at {node_text(answer.sheet, place)}" if place else ""
            return f"refused {number}{at}"
        case PartsTally() as tally:
            return tally.found()
        case found:
            return found.said
