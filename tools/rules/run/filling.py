"""Value sides with the values of their names in them: a run takes a value, which has no names."""

from collections.abc import Mapping
from dataclasses import replace

from rules.run.choices import nodes_below
from rules.run.meetings import known_values
from rules.run.values import COMPOUND, names_below
from rules.tables.sheet import BOUND, BOUND_HERE, LOCAL, RESPECT_PARENT, UNBOUND, Sheet
from rules.text.rule_text import Kind
from rules.text.source import decoded, shown

TWICE = "is measured and read at two places, each of which would be a measurement of its own"
AS_KEY = "is measured, and a key is exact"


class NoRun(Exception):
    """Why there is no run."""


def filled(sheet: Sheet, side: int) -> tuple[Sheet, int]:
    """Tables in which the side has the values of its names; a name without one stays."""
    values = known_values(sheet, RESPECT_PARENT)
    if not any(sheet.name_of(name) in values for name in names_below(sheet, side)):
        return sheet, side
    if sheet.node(side).kind is Kind.NAME:
        value = values[sheet.name_of(side)]
        return replace(sheet, names_of={value: side}), value
    filling = Filling(sheet, values)
    node = filling.node(side)
    return filling.sheet, node


def with_values(sheet: Sheet, values: Mapping[bytes, int]) -> Sheet:
    """Tables in which these names are bound, and have these values."""
    marks = {name: sheet.scope.marks.get(name, 0) | BOUND | BOUND_HERE for name in values}
    marks = {name: mark & ~(UNBOUND | LOCAL) for name, mark in marks.items()}
    names = {name: sheet.names[name]._replace(marks=mark) for name, mark in marks.items()}
    return replace(
        sheet,
        scope=replace(sheet.scope, marks={**sheet.scope.marks, **marks}),
        names={**sheet.names, **names},
        given={**sheet.given, **values},
    )


class Filling:
    """Copies a side behind the tables: no node may stand at two places."""

    def __init__(self, sheet: Sheet, values: Mapping[bytes, int]) -> None:
        self.values = values
        self.used = set(sheet.children)
        self.sheet = replace(
            sheet, nodes=sheet.nodes.copy(), children=sheet.children.copy(), names_of={}
        )

    def node(self, number: int) -> int:
        node = self.sheet.node(number)
        if node.kind is Kind.NAME and self.sheet.name_of(number) in self.values:
            value = self.value(number)
            self.sheet.names_of[value] = number
            return value
        if node.kind not in COMPOUND:
            return self.added(number, node.first)
        return self.compound(number)

    def value(self, name: int) -> int:
        """The value's own node, if it stands nowhere yet; else a copy."""
        value = self.values[self.sheet.name_of(name)]
        if value not in self.used:
            self.used.add(value)
            return value
        if any(node in self.sheet.ranges for node in nodes_below(self.sheet, value)):
            raise self.no_run(name, TWICE)
        return self.node(value)

    def compound(self, number: int) -> int:
        items = self.sheet.items_of(number)
        if self.sheet.node(number).kind is Kind.OBJECT:
            self.check_keys(items[::2])
        copies = [self.node(item) for item in items]
        place = len(self.sheet.children)
        self.sheet.children.extend(copies)
        copy = self.added(number, place)
        self.sheet.filled |= {copy}
        return copy

    def check_keys(self, keys: list[int]) -> None:
        for key in keys:
            named = self.sheet.node(key).kind is Kind.NAME
            if named and self.values.get(self.sheet.name_of(key)) in self.sheet.ranges:
                raise self.no_run(key, AS_KEY)

    def added(self, number: int, first: int) -> int:
        self.sheet.nodes.append(self.sheet.node(number)._replace(first=first))
        return len(self.sheet.nodes)

    def no_run(self, name: int, why: str) -> NoRun:
        return NoRun(f"`{shown(decoded(self.sheet.name_of(name)))}` {why}")
