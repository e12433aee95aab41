"""Runs a planned rule on each item of a file of parts."""

from collections.abc import Iterable, Iterator
from dataclasses import replace
from typing import NamedTuple

from rules.parts.files.items import BadItem, Item
from rules.parts.files.laying_out import BadValue, Layout, quoted
from rules.parts.files.naming import only_named, shape_of
from rules.question import Question, rule_of
from rules.run.meetings import Task
from rules.run.steps import item_verdict
from rules.run.verdict import Verdict
from rules.tables.library import Library
from rules.tables.listing import RunRefusal
from rules.tables.paths import path_in_words
from rules.tables.sheet import ALLOW_SHADOWING, ITEM, KEY, RESPECT_PARENT, Part, Sheet, Writer
from rules.text.rule_text import Expression, Kind, Operation
from rules.text.supplied import supplied_side


class Ran(NamedTuple):
    """An item, the tables that it was run in, and the verdict."""

    item: Item
    sheet: Sheet
    verdict: Verdict


Result = Ran | BadItem


class ItemPattern(NamedTuple):
    """What is run on an item, and on its key if it is not 0."""

    value: int
    key: int
    scoping: int


def results_of(
    question: Question, sheet: Sheet, items: Iterable[Item | BadItem], library: Library
) -> Iterator[Result]:
    """Of the tables of a planned rule."""
    runs = ItemRuns(question, sheet, library)
    for item in items:
        yield item if isinstance(item, BadItem) else runs.result_of(item)


class ItemRuns:
    def __init__(self, question: Question, sheet: Sheet, library: Library) -> None:
        self.sheet = sheet
        self.library = library
        self.entries = question.entries
        self.pattern = item_pattern(question, sheet)
        self.scale = question.parts.scale if question.parts else 1
        is_open = question.parts is not None and question.parts.only_named
        self.shape = shape_of(sheet, self.pattern.value) if is_open else None

    def result_of(self, item: Item) -> Result:
        layout = Layout(self.scale)
        try:
            value = layout.value(only_named(self.shape, item.value))
            sheet, tasks = with_item(self.sheet, self.pattern, bytes(layout.text), value, item.key)
        except BadValue as error:
            path = path_in_words(tuple(error.path))
            return BadItem(item.line, f"{path}: {error}" if path else str(error), item.title())
        return Ran(item, sheet, item_verdict(sheet, tasks, self.library, self.entries))


def item_pattern(question: Question, sheet: Sheet) -> ItemPattern:
    """Of `[w, w] = sides` and of `some [w, w] in sides` it is `[w, w]`."""
    rule = rule_of(question)
    first, second, key = sheet.roots
    if rule.operation is Operation.COLON_EQUALS:
        return ItemPattern(first, 0, ALLOW_SHADOWING)
    if rule.second is None:
        indexed = rule.operation is Operation.INDEX
        return ItemPattern(first, 0, RESPECT_PARENT if indexed else sheet.scope.scoping)
    pattern = first if supplied_side(rule) is rule.second else second
    return ItemPattern(pattern, key, RESPECT_PARENT)


def with_item(
    sheet: Sheet, pattern: ItemPattern, text: bytes, value: Expression, key: str | int
) -> tuple[Sheet, list[Task]]:
    """The tables with an item behind the rule, and what is run in them, the key first."""
    more = replace(
        sheet,
        nodes=sheet.nodes.copy(),
        children=sheet.children.copy(),
        numbers=sheet.numbers.copy(),
        strings=sheet.strings.copy(),
        ranges=sheet.ranges.copy(),
        parts=sheet.parts.copy(),
    )
    writer = Writer(more)
    more.value = writer.more(Part(ITEM, writer.next_start(), text), value)
    tasks = [Task(pattern.value, more.value, pattern.scoping)]
    if pattern.key:
        tasks.insert(0, Task(pattern.key, key_node(writer, key), pattern.scoping))
    return more, tasks


def key_node(writer: Writer, key: str | int) -> int:
    """The name of a named part, the index of another."""
    text = quoted(key) if isinstance(key, str) else str(key).encode()
    kind = Kind.STRING if isinstance(key, str) else Kind.NUMBER
    return writer.more(Part(KEY, writer.next_start(), text), Expression(kind, 0, len(text)))


def refusal_of_rule(ran: Result) -> RunRefusal | None:
    """A refusal at a place of the rule, or of a value given: any item would have it."""
    if isinstance(ran, BadItem) or not isinstance(ran.verdict, RunRefusal):
        return None
    place = ran.verdict.place
    here = ran.sheet.part_of(ran.sheet.node(place).start).what if place else ITEM
    return None if here in (ITEM, KEY) else ran.verdict
