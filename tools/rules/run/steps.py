"""Runs of planned rules, in steps where both sides bind and on the items of a collection."""

from collections.abc import Iterator, Sequence
from dataclasses import replace
from typing import NamedTuple

from rules.run.filling import NoRun, filled, with_values
from rules.run.meetings import Task
from rules.run.misses import Miss
from rules.run.task import ASSIGNMENTS, PAIRS, task_of
from rules.run.values import field_faults
from rules.run.verdict import Match, NoMatch, NotRun, Sometimes, Verdict, verdict_of
from rules.tables.library import Library
from rules.tables.listing import EntryKind, Plan, RunRefusal
from rules.tables.places import node_text
from rules.tables.sheet import KEY, RESPECT_PARENT, Part, Sheet, Writer
from rules.text.rule_text import Expression, Kind, Operation

REST_NOT_RUN = "the pairs behind one that matches sometimes: what it binds isn't settled"
NO_COLLECTION = "a collection is an array, an object or a set, and here stands"
EMPTY = "the collection is empty"
# What may turn out to be a collection.
WITHOUT_VALUE = (Kind.NAME, Kind.OTHER)


class Step(NamedTuple):
    """What is run on what, in tables of its own, and the verdict."""

    title: str
    sheet: Sheet
    task: Task
    verdict: Verdict


class RuleRun(NamedTuple):
    """The tables of the verdict, what was run on what, or the collection, and the steps if any."""

    sheet: Sheet
    task: Task | None
    verdict: Verdict
    steps: Sequence[Step] = ()


def as_it_stands(sheet: Sheet, plan: Plan, library: Library, entries: int) -> RuleRun:
    """On the value of --on, or on the rule's own."""
    try:
        if sheet.operation is Operation.SOME_IN:
            sheet, collection = filled(sheet, sheet.value or sheet.roots[1])
            return items_run(sheet, collection, library, entries)
        if sheet.operation is Operation.EQUALS and plan.form == PAIRS:
            return pairs_run(sheet, plan, library, entries)
        task = task_of(sheet, plan)
        if sheet.operation in ASSIGNMENTS:
            sheet, value = filled(sheet, task.value)
            task = task._replace(value=value)
        return RuleRun(sheet, task, verdict_of(sheet, task, library, entries))
    except NoRun as error:
        return RuleRun(sheet, None, NotRun(str(error)))


def pairs_run(sheet: Sheet, plan: Plan, library: Library, entries: int) -> RuleRun:
    """In plan order, up to the first that doesn't match."""
    steps = list(pair_steps(sheet, plan, library, entries))
    last = steps[-1]
    pairs = sum(entry.kind is EntryKind.PAIR for entry in plan.entries)
    if isinstance(last.verdict, Sometimes) and len(steps) < pairs:
        return RuleRun(last.sheet, None, NotRun(REST_NOT_RUN), steps)
    if not isinstance(last.verdict, Match):
        return RuleRun(last.sheet, last.task, last.verdict, steps)
    bound: dict[bytes, int] = {}
    for step in steps:
        bound |= step.verdict.values
    return RuleRun(last.sheet, last.task, replace(last.verdict, values=bound), steps)


def pair_steps(sheet: Sheet, plan: Plan, library: Library, entries: int) -> Iterator[Step]:
    """What a pair binds is given to those behind it."""
    pairs = [
        (entry.node, below.node)
        for entry, below in zip(plan.entries, plan.entries[1:])
        if entry.kind is EntryKind.PAIR
    ]
    for number, (side, pattern) in enumerate(pairs, 1):
        sheet, value = filled(sheet, side)
        task = Task(pattern, value, RESPECT_PARENT)
        verdict = verdict_of(sheet, task, library, entries)
        yield Step(f"pair {number}", sheet, task, verdict)
        if not isinstance(verdict, Match):
            return
        sheet = with_values(sheet, verdict.values)


def items_run(sheet: Sheet, collection: int, library: Library, entries: int) -> RuleRun:
    """The value pattern on each item, and the key pattern on its key."""
    pattern = sheet.roots[0]
    whole = Task(pattern, collection, RESPECT_PARENT)
    node = sheet.node(collection)
    if node.kind in WITHOUT_VALUE or is_no_object(sheet, collection):
        return RuleRun(sheet, whole, verdict_of(sheet, whole, library, entries))
    if node.kind not in (Kind.ARRAY, Kind.OBJECT, Kind.SET):
        words = f"{NO_COLLECTION} {node_text(sheet, collection)}"
        return RuleRun(sheet, None, NotRun(words))
    steps = list(item_steps(sheet, collection, library, entries))
    if not steps:
        return RuleRun(sheet, whole, NoMatch(Miss(collection, pattern, EMPTY)))
    first = min(steps, key=rank)
    return RuleRun(first.sheet, whole, first.verdict, steps)


def rank(step: Step) -> int:
    """Some item that matches is enough; else what is told is one that may, or can't be run."""
    kinds = (Match, Sometimes, RunRefusal, NoMatch)
    return next(place for place, kind in enumerate(kinds) if isinstance(step.verdict, kind))


def is_no_object(sheet: Sheet, collection: int) -> bool:
    """An object with a key that is computed or repeated."""
    if sheet.node(collection).kind is not Kind.OBJECT:
        return False
    keys = sheet.items_of(collection)[::2]
    return any(fault.node in keys for fault in field_faults(sheet, collection, names=True))


def item_steps(sheet: Sheet, collection: int, library: Library, entries: int) -> Iterator[Step]:
    pattern, _, key_pattern = sheet.roots
    kind, items = sheet.node(collection).kind, sheet.items_of(collection)
    keys, values = (items[::2], items[1::2]) if kind is Kind.OBJECT else (items, items)
    for number, (key, value) in enumerate(zip(keys, values), 1):
        tables = sheet
        task = Task(pattern, value, RESPECT_PARENT)
        tasks = [task]
        if key_pattern and kind is Kind.ARRAY:
            tables, key = with_index(sheet, number - 1)
        if key_pattern:
            tasks.insert(0, Task(key_pattern, key, RESPECT_PARENT))
        title = f"key {node_text(sheet, key)}" if kind is Kind.OBJECT else f"item {number}"
        yield Step(title, tables, task, item_verdict(tables, tasks, library, entries))


def with_index(sheet: Sheet, index: int) -> tuple[Sheet, int]:
    """Tables with the index of an array's item as a node."""
    tables = replace(
        sheet, nodes=sheet.nodes.copy(), numbers=sheet.numbers.copy(), parts=sheet.parts.copy()
    )
    writer = Writer(tables)
    text = str(index).encode()
    part = Part(KEY, writer.next_start(), text)
    return tables, writer.more(part, Expression(Kind.NUMBER, 0, len(text)))


def item_verdict(sheet: Sheet, tasks: Sequence[Task], library: Library, entries: int) -> Verdict:
    """Key and value are run apart, as they are planned; a match sets the names of both."""
    values: dict[bytes, int] = {}
    verdict: Verdict = Match(values)
    for task in tasks:
        verdict = verdict_of(sheet, task, library, entries)
        if not isinstance(verdict, Match):
            return verdict
        values |= verdict.values
    return replace(verdict, values=values)
