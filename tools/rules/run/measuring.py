"""Runs on measured numbers: which have to be equal, and what that leaves of them."""

from collections.abc import Iterable
from dataclasses import dataclass
from typing import NamedTuple

from rules.run.choices import Choice, Pair, is_certain
from rules.run.meetings import Compared, Task, compared_in_run, have_one_shape
from rules.run.misses import Miss, compared_miss
from rules.run.values import fields_of, literal_of
from rules.tables.places import node_text
from rules.tables.sheet import Range, Sheet, range_of
from rules.text.rule_text import LITERALS, Kind


def pairs_of(sheet: Sheet, left: int, right: int) -> list[Pair] | None:
    """The numbers that have to be equal for two nodes to be; None where no numbers make them so."""
    one, other = sheet.node(left), sheet.node(right)
    if one.kind is Kind.NUMBER and other.kind is Kind.NUMBER:
        return [Pair(left, right)]
    if one.kind in LITERALS and other.kind in LITERALS:
        return [] if literal_of(sheet, left) == literal_of(sheet, right) else None
    if not have_one_shape(sheet, left, right):
        return None
    if one.kind is Kind.ARRAY:
        return joined(sheet, zip(sheet.items_of(left), sheet.items_of(right)))
    others = fields_of(sheet, right)
    fields = fields_of(sheet, left).items()
    return joined(sheet, ((value, others[key]) for key, value in fields))


def joined(sheet: Sheet, items: Iterable[tuple[int, int]]) -> list[Pair] | None:
    found: list[Pair] = []
    for left, right in items:
        pairs = pairs_of(sheet, left, right)
        if pairs is None:
            return None
        found += pairs
    return found


@dataclass
class Class:
    """Nodes that have one number, and the range that is left for it."""

    nodes: list[int]
    left: Range


class Classes:
    def __init__(self, sheet: Sheet) -> None:
        self.sheet = sheet
        self.by_node: dict[int, Class] = {}

    def of(self, node: int) -> Class:
        return self.by_node.setdefault(node, Class([node], range_of(self.sheet, node)))

    def join(self, pair: Pair) -> bool:
        """Whether a number is left that both can have; else the classes stay as they were."""
        one, other = self.of(pair.left), self.of(pair.right)
        left = common(one.left, other.left)
        if left.lowest > left.highest:
            return False
        if one is not other:
            one.nodes += other.nodes
            one.left = left
            self.by_node.update(dict.fromkeys(other.nodes, one))
        return True

    def choice(self) -> Choice:
        """The lowest number that is left for each node that has a range."""
        return {node: self.of(node).left.lowest for node in self.sheet.ranges}


def common(one: Range, other: Range) -> Range:
    return Range(max(one.lowest, other.lowest), min(one.highest, other.highest))


class Undecided(NamedTuple):
    """Two numbers that may be equal or not, and the words for it."""

    pair: Pair
    miss: Miss


class Measuring:
    """Joins the numbers that a run compares, up to the first two that no choice makes equal.

    So the run of `choice` misses where every run does, or matches.
    """

    def __init__(self, sheet: Sheet, task: Task) -> None:
        self.sheet = sheet
        self.classes = Classes(sheet)
        self.undecided: Undecided | None = None
        self.left_by_then = ""
        for met in compared_in_run(sheet, task):
            pairs = pairs_of(sheet, met.left, met.node)
            if pairs is None or not all(self.join(met, pair) for pair in pairs):
                break
        self.choice = self.classes.choice()

    def join(self, met: Compared, pair: Pair) -> bool:
        if self.undecided is None and not is_certain(self.sheet, pair):
            self.undecided = Undecided(pair, pair_miss(self.sheet, met, pair))
        if self.classes.join(pair):
            return True
        self.left_by_then = left_in_words(self.sheet, pair, self.classes.of(pair.left).left)
        return False


def pair_miss(sheet: Sheet, met: Compared, pair: Pair) -> Miss:
    """What is asked for at the second node of a pair in a value that is compared."""
    verb = "is" if pair.left == met.left else "has"
    return compared_miss(sheet, met.asked, pair.left, pair.right, verb)


def left_in_words(sheet: Sheet, pair: Pair, left: Range) -> str:
    """Said where earlier comparisons have narrowed what a number may be."""
    if left == range_of(sheet, pair.left):
        return ""
    ends = f"{left.lowest}..{left.highest}" if left.lowest < left.highest else left.lowest
    return f"; of {node_text(sheet, pair.left)} only {ends} is left by then"
