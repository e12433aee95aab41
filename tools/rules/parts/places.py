"""Where a run on an item missed, or what decides it: told by paths, not by columns."""

from typing import NamedTuple

from rules.run.choices import Choice
from rules.run.misses import Miss
from rules.run.verdict import Sometimes
from rules.tables.paths import path_below, path_of
from rules.tables.sheet import GIVEN, Sheet
from rules.text.source import decoded


class Where(NamedTuple):
    """The path to the place in the item, and what was asked for there."""

    path: str
    words: str


def where(sheet: Sheet, miss: Miss) -> Where:
    return Where(path_of(sheet, miss.node), miss.words)


def numbers_by_path(sheet: Sheet, choice: Choice) -> dict[str, int]:
    """The chosen number of each that is measured."""
    return {number_path(sheet, node): number for node, number in choice.items()}


def number_path(sheet: Sheet, node: int) -> str:
    part = sheet.part_of(sheet.node(node).start)
    if part.what != GIVEN:
        return path_of(sheet, node)
    return f"given {decoded(part.name)}" + path_below(sheet, sheet.given[part.name], node)


def deciding_numbers(sheet: Sheet, found: Sometimes) -> str:
    """Those that differ between a choice that matches and one that doesn't."""
    matching = numbers_by_path(sheet, found.matching)
    missing = numbers_by_path(sheet, found.missing)
    differ = [path for path in matching if matching[path] != missing[path]]
    match = ", ".join(f"{path} {matching[path]}".lstrip() for path in differ)
    no_match = ", ".join(f"{path} {missing[path]}".lstrip() for path in differ)
    return f"match with {match}, no match with {no_match}"
