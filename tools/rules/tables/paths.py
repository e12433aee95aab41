"""The path to a node in an item of a file: `right`, `sides[1].t`."""

import re
from collections.abc import Iterator

from rules.tables.sheet import KEY, Sheet
from rules.text.literals import string_value
from rules.text.rule_text import Kind
from rules.text.source import shown

BARE = re.compile(r"[A-Za-z_][A-Za-z0-9_]*")
ITS_KEY = "its key"
Steps = tuple[str | int, ...]


def path_of(sheet: Sheet, number: int) -> str:
    """Nothing for the item as a whole; a key's path is that of its field."""
    if sheet.part_of(sheet.node(number).start).what == KEY:
        return ITS_KEY
    return path_below(sheet, sheet.value, number).removeprefix(".")


def path_below(sheet: Sheet, root: int, number: int) -> str:
    """What follows the root's own name: `[1].t`."""
    return "".join(map(step_in_words, next(steps_to(sheet, root, number, ()), ())))


def steps_to(sheet: Sheet, number: int, sought: int, steps: Steps) -> Iterator[Steps]:
    if number == sought:
        yield steps
    for step, key, item in items_of(sheet, number):
        if key == sought:
            yield (*steps, step)
        yield from steps_to(sheet, item, sought, (*steps, step))


def items_of(sheet: Sheet, number: int) -> list[tuple[str | int, int, int]]:
    """The step to each item, its key's node or 0, and its node."""
    kind = sheet.node(number).kind
    if kind is Kind.ARRAY:
        return [(place, 0, item) for place, item in enumerate(sheet.items_of(number))]
    items = sheet.items_of(number) if kind is Kind.OBJECT else []
    return [(key_text(sheet, key), key, item) for key, item in zip(items[::2], items[1::2])]


def key_text(sheet: Sheet, key: int) -> str:
    """Keys of an item are strings, as JSON has them."""
    node = sheet.node(key)
    return string_value(sheet.text[node.start : node.end], 0).decode()


def path_in_words(steps: Steps) -> str:
    """As Rego writes it: places of an array from 0."""
    return "".join(map(step_in_words, steps)).removeprefix(".")


def step_in_words(step: str | int) -> str:
    if isinstance(step, int):
        return f"[{step}]"
    return f".{step}" if BARE.fullmatch(step) else f'["{shown(step)}"]'
