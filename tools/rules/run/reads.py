"""The names that a plan reads and that have no value by then (document 02, request 14)."""

from collections.abc import Iterator
from typing import NamedTuple

from rules.run.values import names_below
from rules.tables.listing import Entry, EntryKind, Plan
from rules.tables.sheet import RESPECT_PARENT, WILDCARD, Sheet
from rules.text.rule_text import LITERALS, Operation

# `_` is no name, the others have a value in every rule.
PASSED_OVER = frozenset({WILDCARD, b"input", b"data"})
LEFT, RIGHT = 0, 1
# Of `=`, by form and side: bind left, bind right, equality check, wildcard left and right.
VALUE_SIDES = {
    (2, 0): [RIGHT],
    (3, 0): [LEFT],
    (5, 0): [LEFT, RIGHT],
    (6, 1): [RIGHT],
    (6, 2): [LEFT],
}


class Read(NamedTuple):
    """A name's node, and whether it stands in a computed key."""

    node: int
    as_key: bool


def reads_without_value(sheet: Sheet, plan: Plan) -> list[Read]:
    """Each such name once, at its first place; as they stand in the text."""
    first: dict[bytes, Read] = {}
    for read in sorted(Reads(sheet, plan).all(), key=lambda read: sheet.node(read.node).start):
        first.setdefault(sheet.name_of(read.node), read)
    return list(first.values())


class Reads:
    """A plan, gone over as it is carried out, with the names bound so far."""

    def __init__(self, sheet: Sheet, plan: Plan) -> None:
        self.sheet = sheet
        self.plan = plan
        self.below = entries_below(plan.entries)
        self.bound: set[bytes] = set()
        # By earlier pairs: what a value side and a computed key may read.
        self.bound_before: set[bytes] = set()

    def all(self) -> Iterator[Read]:
        for side in self.value_sides():
            yield from self.without_value(side, self.bound_before)
        for place, entry in enumerate(self.plan.entries):
            if entry.depth == 0:
                yield from self.entry(place)

    def value_sides(self) -> list[int]:
        """Those of the whole rule; pairs have their own."""
        _, right, _ = self.sheet.roots
        if self.sheet.operation is not Operation.EQUALS:
            return [right] if right else []
        sides = VALUE_SIDES.get((self.plan.form, self.plan.side), [])
        return [self.sheet.roots[side] for side in sides]

    def entry(self, place: int) -> Iterator[Read]:
        entry = self.plan.entries[place]
        if entry.kind is EntryKind.PAIR:
            self.bound_before = set(self.bound)
            yield from self.without_value(entry.node, self.bound_before)
        elif entry.kind is EntryKind.BIND:
            self.bound.add(self.sheet.name_of(entry.node))
        elif entry.kind is EntryKind.COMPARE_EXPRESSION:
            yield from self.without_value(entry.node, self.bound)
        for child in self.below[place]:
            yield from self.key(self.plan.entries[child].key)
            yield from self.entry(child)

    def key(self, key: int) -> Iterator[Read]:
        if key and self.sheet.node(key).kind not in LITERALS:
            yield from self.without_value(key, self.bound_before, as_key=True)

    def without_value(self, node: int, bound: set[bytes], as_key: bool = False) -> Iterator[Read]:
        for name in names_below(self.sheet, node):
            text = self.sheet.name_of(name)
            known = self.sheet.scope.is_known(text, RESPECT_PARENT)
            if not known and text not in bound and text not in PASSED_OVER:
                yield Read(name, as_key)


def entries_below(entries: list[Entry]) -> list[list[int]]:
    """The places of the entries below each, as written: a plan lists fields in key order."""
    below: list[list[int]] = [[] for _ in entries]
    path: list[int] = []
    for place, entry in enumerate(entries):
        del path[entry.depth :]
        if path:
            below[path[-1]].append(place)
        path.append(place)
    return [sorted(places, key=lambda place: entries[place].position) for places in below]
