"""The sheet of a rule: its tables as numbers in columns, as plansheet reads them."""

from collections.abc import Mapping
from dataclasses import dataclass, field
from typing import NamedTuple

from rules.text.literals import NUMBER_COLUMN, number_value, string_value
from rules.text.rule_text import Expression, Kind, Operation, Rule
from rules.text.tokens import RuleTextError

RESPECT_PARENT = 1
ALLOW_SHADOWING = 2
# Added to either.
CAREFUL = 2

# Marks of a name.
BOUND = 1
BOUND_HERE = 2
UNBOUND = 4
LOCAL = 8
GLOBAL = 16
WILDCARD = b"_"

COLUMN = 6
LARGEST = 10**COLUMN - 1


# What a part of the text is.
RULE = "rule"
VALUE = "value"
GIVEN = "given"
# An item of a file, whose text nobody sees; the key of an item.
ITEM = "item"
KEY = "key"


class Node(NamedTuple):
    kind: Kind
    start: int
    end: int
    first: int
    count: int


class Name(NamedTuple):
    start: int
    length: int
    marks: int


class Range(NamedTuple):
    """The lowest and the highest number of a node."""

    lowest: int
    highest: int


@dataclass
class Scope:
    """The marks of names, summed: 1 bound, 2 bound here, 4 unbound, 8 local, 16 global."""

    marks: Mapping[bytes, int] = field(default_factory=dict)
    scheduler: bool = False
    scoping: int = RESPECT_PARENT
    careful: bool = False

    def is_known(self, name: bytes, scoping: int) -> bool:
        """Not unbound under the scoping; `_` is not counted."""
        marks = self.marks.get(name, 0)
        unbound = marks & UNBOUND or (marks & LOCAL and self.scheduler)
        if unbound or name == WILDCARD or scoping == ALLOW_SHADOWING:
            return False
        return marks & (BOUND | GLOBAL) != 0

    def scoping_number(self) -> int:
        """As line 2 has it: 3 and 4 are 1 and 2 with the careful reading."""
        return self.scoping + (CAREFUL if self.careful else 0)


class Part(NamedTuple):
    """The text of the rule, of a value or key, or of a value given to a name; where it starts."""

    what: str
    start: int
    text: bytes
    name: bytes = b""


@dataclass
class Sheet:
    """The tables of a rule; nodes are numbered as they end in the text, names as they appear.

    For a run its values stand in the same tables, their texts behind the rule's. A number that is
    measured has its range in `ranges`, and the lowest as its own number. An array or object into
    which values of names were put is in `filled`: its text isn't that of its items. `names_of` has
    for such a value the node of the name for which it stands.
    """

    text: bytes
    operation: Operation
    scope: Scope
    roots: tuple[int, int, int] = (0, 0, 0)
    nodes: list[Node] = field(default_factory=list)
    children: list[int] = field(default_factory=list)
    numbers: list[int] = field(default_factory=list)
    names: dict[bytes, Name] = field(default_factory=dict)
    strings: bytearray = field(default_factory=bytearray)
    value: int = 0
    given: dict[bytes, int] = field(default_factory=dict)
    ranges: dict[int, Range] = field(default_factory=dict)
    filled: frozenset[int] = frozenset()
    names_of: dict[int, int] = field(default_factory=dict)
    parts: list[Part] = field(default_factory=list)

    def __post_init__(self) -> None:
        self.parts = self.parts or [Part(RULE, 0, self.text)]

    def part_of(self, place: int) -> Part:
        """The part of the text in which a place stands."""
        return next(part for part in reversed(self.parts) if part.start <= place)

    def name_of(self, number: int) -> bytes:
        """The name of a name's node."""
        _, start, end, *_ = self.nodes[number - 1]
        return self.text[start:end]

    def items_of(self, number: int) -> list[int]:
        """The items of an array or a set; keys and values of an object in turn."""
        kind, _, _, first, count = self.nodes[number - 1]
        return self.children[first : first + count * (2 if kind is Kind.OBJECT else 1)]

    def counts(self) -> dict[str, int]:
        """Line 1."""
        return {
            "nodes": len(self.nodes),
            "child entries": len(self.children),
            "numbers": len(self.numbers),
            "names": len(self.names),
            "string bytes": len(self.strings),
            "text bytes": len(self.text),
        }

    def node(self, number: int) -> Node:
        return self.nodes[number - 1]

    def asked(self) -> list[int]:
        """Line 2."""
        scope = self.scope
        return [self.operation, scope.scheduler, scope.scoping_number(), *self.roots]

    def to_bytes(self) -> bytes:
        lines = [
            columns(*self.counts().values()),
            columns(*self.asked()),
            *(columns(*node) for node in self.nodes),
            *(columns(child) for child in self.children),
            *(f"{number:{NUMBER_COLUMN}}\n" for number in self.numbers),
            *(columns(*name) for name in self.names.values()),
        ]
        return "".join(lines).encode() + self.strings + self.text


def range_of(sheet: Sheet, number: int) -> Range:
    """A node's range; a number without one is exact, and what is no number has 0."""
    node = sheet.node(number)
    own = sheet.numbers[node.first] if node.kind is Kind.NUMBER else 0
    return sheet.ranges.get(number, Range(own, own))


def columns(*numbers: int) -> str:
    return f"%{COLUMN}d" * len(numbers) % numbers + "\n"


def sheet_of(rule: Rule, scope: Scope) -> Sheet:
    sheet = Sheet(rule.text, rule.operation, scope)
    Writer(sheet).rule(rule)
    return sheet


class Writer:
    def __init__(self, sheet: Sheet) -> None:
        self.sheet = sheet
        self.name_numbers: dict[bytes, int] = {}
        self.part = sheet.parts[0]

    def line(self, part: Part, rule: Rule) -> Part:
        """A line of a rule body, as a part more."""
        self.begin(part)
        self.rule(rule)
        return part

    def rule(self, rule: Rule) -> None:
        if len(rule.text) > LARGEST:
            message = f"a sheet has no column for more than {LARGEST} bytes"
            raise RuleTextError(message, LARGEST, len(rule.text))
        key = self.root(rule.key)
        first = self.root(rule.first)
        second = self.root(rule.second)
        self.sheet.roots = (first, second, key)

    def value(self, text: bytes, expression: Expression) -> None:
        self.sheet.value = self.more(Part(VALUE, self.next_start(), text), expression)

    def given(self, name: bytes, text: bytes, expression: Expression) -> None:
        part = Part(GIVEN, self.next_start(), text, name)
        self.sheet.given[name] = self.more(part, expression)

    def next_start(self) -> int:
        """Where the next part's text starts: behind a line feed."""
        return len(self.sheet.text) + 1

    def more(self, part: Part, expression: Expression) -> int:
        self.begin(part)
        return self.node(expression)

    def begin(self, part: Part) -> None:
        self.part = part
        self.sheet.parts.append(part)
        self.sheet.text += b"\n" + part.text

    def root(self, expression: Expression | None) -> int:
        return self.node(expression) if expression else 0

    def node(self, expression: Expression) -> int:
        """Adds an expression, its items first, and returns its number."""
        first, count = self.words(expression)
        start = self.part.start
        node = Node(
            expression.kind, start + expression.start, start + expression.end, first, count
        )
        self.sheet.nodes.append(node)
        if expression.kind is Kind.NUMBER and expression.items:
            self.sheet.ranges[len(self.sheet.nodes)] = Range(*map(self.number, expression.items))
        return len(self.sheet.nodes)

    def words(self, expression: Expression) -> tuple[int, int]:
        """The words `first` and `count` of an expression's node."""
        text = self.part.text[expression.start : expression.end]
        match expression.kind:
            case Kind.STRING:
                return self.string(string_value(text, expression.start))
            case Kind.RAW_STRING:
                return self.part.start + expression.start + 1, len(text) - 2
            case Kind.NUMBER:
                lowest, *_ = (*expression.items, expression)
                self.sheet.numbers.append(self.number(lowest))
                return len(self.sheet.numbers) - 1, 0
            case Kind.BOOL:
                return int(text == b"true"), 0
            case Kind.NAME:
                return self.name(text, self.part.start + expression.start), 0
            case Kind.ARRAY | Kind.SET:
                return self.items(expression), len(expression.items)
            case Kind.OBJECT:
                return self.items(expression), len(expression.items) // 2
            case _:
                return 0, 0

    def number(self, expression: Expression) -> int:
        text = self.part.text[expression.start : expression.end]
        return number_value(text, expression.start)

    def string(self, value: bytes) -> tuple[int, int]:
        place = len(self.sheet.strings)
        self.sheet.strings += value
        return place, len(value)

    def name(self, name: bytes, start: int) -> int:
        if name not in self.name_numbers:
            marks = self.sheet.scope.marks.get(name, 0)
            self.sheet.names[name] = Name(start, len(name), marks)
            self.name_numbers[name] = len(self.sheet.names)
        return self.name_numbers[name]

    def items(self, expression: Expression) -> int:
        numbers = [self.node(item) for item in expression.items]
        place = len(self.sheet.children)
        self.sheet.children += numbers
        return place
