"""Choices of measured numbers: one for each node that has a range."""

from collections.abc import Iterable, Iterator, Mapping
from dataclasses import replace
from typing import NamedTuple

from rules.run.values import COMPOUND
from rules.tables.sheet import Part, Sheet, range_of

Choice = Mapping[int, int]


class Pair(NamedTuple):
    """Two nodes whose numbers have to be equal; the first is the pattern's or a name's value's."""

    left: int
    right: int


def is_certain(sheet: Sheet, pair: Pair) -> bool:
    """Equal whatever is chosen: one node, or two that have one and the same number."""
    left, right = range_of(sheet, pair.left), range_of(sheet, pair.right)
    return pair.left == pair.right or left == right and left.lowest == left.highest


def differing_choice(sheet: Sheet, pair: Pair) -> Choice:
    """The lowest numbers, unless these are equal at the two nodes: then one has its highest."""
    choice = {node: ends.lowest for node, ends in sheet.ranges.items()}
    left, right = range_of(sheet, pair.left), range_of(sheet, pair.right)
    if left.lowest == right.lowest:
        node, ends = (pair.left, left) if left.lowest < left.highest else (pair.right, right)
        choice[node] = ends.highest
    return choice


def chosen(sheet: Sheet, choice: Choice) -> Sheet:
    """The tables with the chosen numbers in place of the ranges; the texts stay."""
    numbers = sheet.numbers.copy()
    for node, number in choice.items():
        numbers[sheet.node(node).first] = number
    return replace(sheet, numbers=numbers, ranges={})


def chosen_text(sheet: Sheet, part: Part, choice: Choice) -> bytes:
    """The text of a part with the chosen numbers in it."""
    text = part.text
    for number in sorted(choice, key=lambda node: -sheet.node(node).start):
        node = sheet.node(number)
        if sheet.part_of(node.start) == part:
            first, last = node.start - part.start, node.end - part.start
            text = text[:first] + str(choice[number]).encode() + text[last:]
    return text


def wrong_range(sheet: Sheet, roots: Iterable[int]) -> int:
    """The first node below the roots whose lowest number is above its highest, or 0."""
    if not sheet.ranges:
        return 0
    below = (node for root in roots for node in nodes_below(sheet, root))
    wrong = (node for node in below if range_of(sheet, node).lowest > range_of(sheet, node).highest)
    return next(wrong, 0)


def nodes_below(sheet: Sheet, number: int) -> Iterator[int]:
    yield number
    if sheet.node(number).kind in COMPOUND:
        for item in sheet.items_of(number):
            yield from nodes_below(sheet, item)
