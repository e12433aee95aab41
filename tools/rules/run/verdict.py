"""A run's verdict, that of the proved code; the places of refusals are the tool's reading."""

from collections.abc import Mapping
from dataclasses import dataclass, replace

from rules.no_answer import NoAnswer
from rules.run.choices import Choice, chosen, differing_choice, wrong_range
from rules.run.measuring import Measuring
from rules.run.meetings import Task, known_values
from rules.run.misses import Miss, miss_of
from rules.run.values import Fault, names_below, no_value, not_simple
from rules.tables.library import NO_MATCH, SOMETIMES, FirstMiss, Library, Ran
from rules.tables.listing import EntryKind, Refusal, RunRefusal
from rules.tables.sheet import RULE, WILDCARD, Sheet
from rules.text.rule_text import Kind
from rules.text.source import decoded, shown

# Of the table check, which looks at all values; the tables of the rule alone have passed it.
TABLE_CHECK = (1, 3)
PLAN_TOO_LARGE = 6
NOT_SIMPLE = 21
NOT_A_VALUE = 22
NO_VALUE_OF_NAME = 23
RANGE_WRONG = 32
MATCHED = 0
VERDICTS = {MATCHED: "match", NO_MATCH: "no match", SOMETIMES: "sometimes"}


@dataclass(frozen=True)
class Match:
    """The node of each planned name's value."""

    values: dict[bytes, int]
    said = "match"


@dataclass(frozen=True)
class Always(Match):
    """A match whatever the measured numbers are."""

    said = "always"


@dataclass(frozen=True)
class NoMatch:
    miss: Miss
    said = "no match"


@dataclass(frozen=True)
class Never(NoMatch):
    """No match whatever the measured numbers are."""

    said = "never"


@dataclass(frozen=True)
class Sometimes:
    """What decides whether it matches; numbers by node for which it does, and doesn't."""

    undecided: Miss
    matching: Choice
    missing: Choice
    said = "sometimes"


@dataclass(frozen=True)
class NotRun:
    """Why there is no run."""

    words: str
    said = "not run"


Verdict = Match | NoMatch | Sometimes | RunRefusal | NotRun


def verdict_of(sheet: Sheet, task: Task, library: Library, entries: int) -> Verdict:
    listed = listed_values(sheet)
    ran = library.run(sheet, *task, listed, entries)
    number, _, needed, _ = ran.answer
    if number in TABLE_CHECK:
        return RunRefusal(number, 0, (0, 0))
    in_the_way = run_refusal(sheet, task)
    if in_the_way is None and number == PLAN_TOO_LARGE:
        return RunRefusal(number, 0, (needed, 0))
    check_reading("run", number, VERDICTS, in_the_way)
    if in_the_way:
        return in_the_way
    if number == MATCHED:
        return (Always if sheet.ranges else Match)(bound_values(sheet, ran))
    if sheet.ranges:
        return measured_verdict(sheet, task, number, library, entries)
    return NoMatch(miss_of(sheet, task, first_miss(sheet, task, library)))


def check_reading(
    what: str, number: int, answers: Mapping[int, str], read: Refusal | None
) -> None:
    """A call is refused exactly where the tool reads so, and with that number."""
    proved = None if number in answers else number
    if proved != (read.number if read else None):
        reads = f"reads refusal {read.number}" if read else "finds nothing in the way"
        raise NoAnswer(
            f"the tool's reading disagrees with the proved {what}, which answers"
            f" {answers.get(number, f'refusal {number}')}; the tool {reads}"
        )


def listed_values(sheet: Sheet) -> list[int]:
    return [sheet.given.get(name, 0) for name in sheet.names]


def bound_values(sheet: Sheet, ran: Ran) -> dict[bytes, int]:
    """The nodes that a match has set, of names as they are bound in the text."""
    values = dict(zip(sheet.names, ran.values))
    bound = [entry.node for entry in ran.entries if entry.kind is EntryKind.BIND]
    bound.sort(key=lambda node: sheet.node(node).start)
    return {sheet.name_of(node): values[sheet.name_of(node)] for node in bound}


def first_miss(sheet: Sheet, task: Task, library: Library) -> FirstMiss:
    """Of a run that answers no match."""
    first = library.first_miss(sheet, *task, listed_values(sheet))
    if first.number != NO_MATCH:
        raise NoAnswer(f"{library.path} answers no match and tells no miss: {first.number}")
    return first


def measured_verdict(
    sheet: Sheet, task: Task, number: int, library: Library, entries: int
) -> Verdict:
    measuring = Measuring(sheet, task)
    if number == NO_MATCH:
        first = first_miss(chosen(sheet, measuring.choice), task, library)
        miss = miss_of(sheet, task, first)
        return Never(replace(miss, words=miss.words + measuring.left_by_then))
    if measuring.undecided is None:
        raise NoAnswer("the run answers sometimes, and the tool finds nothing that decides")
    pair, miss = measuring.undecided
    found = Sometimes(miss, measuring.choice, differing_choice(sheet, pair))
    check_choices(sheet, task, found, library, entries)
    return found


def check_choices(
    sheet: Sheet, task: Task, read: Sometimes, library: Library, entries: int
) -> None:
    """Each choice of numbers is run by the proved code too."""
    for choice, expected in ((read.matching, Match), (read.missing, NoMatch)):
        verdict = verdict_of(chosen(sheet, choice), task, library, entries)
        if not isinstance(verdict, expected):
            raise NoAnswer(f"the tool's choice of numbers is none: the run answers {verdict}")


def run_refusal(sheet: Sheet, task: Task) -> RunRefusal | None:
    """21, 22, 23 or 32 with its place, if any."""
    fault = not_simple(sheet, task.pattern)
    if fault:
        return refused(NOT_SIMPLE, fault)
    fault = side_fault(sheet, task.value) or given_fault(sheet)
    if fault:
        return refused(NOT_A_VALUE, fault)
    name = name_without_value(sheet, task)
    if name:
        return refused(NO_VALUE_OF_NAME, Fault(name, without_value(sheet, name)))
    wrong = wrong_range(sheet, known_roots(sheet, task))
    return refused(RANGE_WRONG, Fault(wrong, "the range")) if wrong else None


def known_roots(sheet: Sheet, task: Task) -> list[int]:
    """The value and the values of known names, whose numbers are measured."""
    return [task.value, *known_values(sheet, task.scoping).values()]


def side_fault(sheet: Sheet, side: int) -> Fault | None:
    """The first place that makes this no value; a name of the rule can be given one."""
    fault = no_value(sheet, side)
    node = sheet.node(fault.node) if fault else None
    if node is None or node.kind is not Kind.NAME or sheet.part_of(node.start).what != RULE:
        return fault
    wildcard = sheet.name_of(fault.node) == WILDCARD
    return fault if wildcard else Fault(fault.node, without_value(sheet, fault.node))


def without_value(sheet: Sheet, number: int) -> str:
    """That a name has no value, and how to give it one."""
    name = sheet.name_of(number)
    said = shown(decoded(name))
    if name in sheet.given:
        return f"`{said}` is unbound here, and so has no value"
    return f"`{said}` has no value: --given {said}=.."


def given_fault(sheet: Sheet) -> Fault | None:
    """The first place of the given values that is none."""
    for name, node in sheet.given.items():
        fault = no_value(sheet, node)
        if fault:
            return Fault(fault.node, f"{fault.what}, in the value given to `{decoded(name)}`")
    return None


def refused(number: int, fault: Fault) -> RunRefusal:
    return RunRefusal(number, fault.node, (0, 0), fault.what)


def name_without_value(sheet: Sheet, task: Task) -> int:
    """The first known name of the pattern that has no value, or 0."""
    for node in names_below(sheet, task.pattern):
        name = sheet.name_of(node)
        if name not in sheet.given and sheet.scope.is_known(name, task.scoping):
            return node
    return 0
