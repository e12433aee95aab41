"""Why no value matches both patterns: the first two places that can't agree.

This explains and decides nothing: that there is no example is the answer of the proved call. It is
unification in the order of the texts: places that must have one value are joined to a class, until
two meet that can't be equal, or a value would have to hold itself. Tests hold it against the call.
"""

from collections.abc import Iterator
from dataclasses import dataclass
from enum import Enum
from typing import NamedTuple

from rules.both.sides import Side
from rules.run.values import fields_of, literal_of
from rules.tables.sheet import WILDCARD
from rules.text.rule_text import LITERALS, Kind


class Place(NamedTuple):
    """What has a value: a node on a side, or a name there, without a node."""

    side: int
    node: int
    name: bytes = b""


class Meeting(NamedTuple):
    """A place, and the node of its pattern at which it is met: its own, or that of a name.

    It is inside a name if it is a part of what the name stands for.
    """

    place: Place
    at: int
    inside: bool = False


@dataclass
class Class:
    """Places that must have one value, and the first of them that says what it is, if any."""

    places: list[Place]
    head: Place | None


class Asked(NamedTuple):
    """What a side asks for at a meeting, if anything: a literal, an array or an object."""

    meeting: Meeting
    head: Place | None

    def at_itself(self) -> bool:
        return self.head is not None and self.head.node == self.meeting.at


class Reason(Enum):
    DIFFERENT = "different"
    # One of them has the key that the clash names, the other hasn't.
    KEYS = "keys"
    HOLDS_ITSELF = "holds itself"


class Clash(NamedTuple):
    """What the first and the second pattern ask for, and can't both have."""

    reason: Reason
    first: Asked
    second: Asked
    key: int = 0


Pair = tuple[Meeting, Meeting]


def clash_of(sides: list[Side]) -> Clash | None:
    return Unifying(sides).clash()


class Unifying:
    def __init__(self, sides: list[Side]) -> None:
        self.sides = sides
        self.sheet = sides[0].tables
        self.classes: dict[Place, Class] = {}

    def clash(self) -> Clash | None:
        first, second = (self.met_at(side.place, side.root) for side in self.sides)
        pairs = [(first, second)]
        while pairs:
            pair = pairs.pop()
            one, other = (self.class_of(meeting.place) for meeting in pair)
            if one is other:
                continue
            asked = [self.asked(meeting) for meeting in pair]
            joined = self.join(one, other)
            clash = self.difference(*asked)
            if clash is None and self.holds_itself(joined):
                clash = Clash(Reason.HOLDS_ITSELF, *asked)
            if clash:
                return clash
            pairs += reversed(list(self.parts(*asked)))
        return None

    def met_at(self, side: int, node: int) -> Meeting:
        return Meeting(self.place_of(side, node), node)

    def place_of(self, side: int, node: int) -> Place:
        """A known name stands for its value; `_` is a place of its own wherever it stands."""
        if self.sheet.node(node).kind is not Kind.NAME:
            return Place(side, node)
        name = self.sheet.name_of(node)
        if name == WILDCARD:
            return Place(side, node)
        if self.sides[side].is_known(name):
            return Place(side, self.sides[side].tables.given[name])
        return Place(side, 0, name)

    def says(self, place: Place) -> bool:
        """Whether a place itself says what its value is."""
        return place.node != 0 and self.sheet.node(place.node).kind is not Kind.NAME

    def class_of(self, place: Place) -> Class:
        if place not in self.classes:
            self.classes[place] = Class([place], place if self.says(place) else None)
        return self.classes[place]

    def asked(self, meeting: Meeting) -> Asked:
        place = meeting.place
        return Asked(meeting, place if self.says(place) else self.class_of(place).head)

    def join(self, one: Class, other: Class) -> Class:
        one.places += other.places
        one.head = one.head or other.head
        self.classes.update(dict.fromkeys(other.places, one))
        return one

    def difference(self, first: Asked, second: Asked) -> Clash | None:
        """Kinds, literals, lengths or keys that differ."""
        if first.head is None or second.head is None:
            return None
        nodes = first.head.node, second.head.node
        one, other = map(self.sheet.node, nodes)
        if one.kind in LITERALS and other.kind in LITERALS:
            literal, another = (literal_of(self.sheet, node) for node in nodes)
            return None if literal == another else Clash(Reason.DIFFERENT, first, second)
        if one.kind is not other.kind or one.kind is Kind.ARRAY and one.count != other.count:
            return Clash(Reason.DIFFERENT, first, second)
        key = self.key_of_one(*nodes) if one.kind is Kind.OBJECT else 0
        return Clash(Reason.KEYS, first, second, key) if key else None

    def key_of_one(self, one: int, other: int) -> int:
        """The first key of an object that the other hasn't, or the other way round, or 0."""
        for node, without in ((one, other), (other, one)):
            fields = fields_of(self.sheet, without)
            for key in self.sheet.items_of(node)[::2]:
                if literal_of(self.sheet, key) not in fields:
                    return key
        return 0

    def holds_itself(self, whole: Class) -> bool:
        """Whether a class is met below itself; it holds no class that does."""
        below = [*self.classes_below(whole)]
        seen: set[int] = set()
        while below:
            part = below.pop()
            if part is whole:
                return True
            if id(part) not in seen:
                seen.add(id(part))
                below += self.classes_below(part)
        return False

    def classes_below(self, whole: Class) -> Iterator[Class]:
        """Those of its head's parts, to which those of its other places are joined in time."""
        if whole.head is None:
            return
        side, node, _ = whole.head
        kind = self.sheet.node(node).kind
        step = {Kind.ARRAY: 1, Kind.OBJECT: 2}.get(kind)
        if step:
            for item in self.sheet.items_of(node)[step - 1 :: step]:
                yield self.class_of(self.place_of(side, item))

    def parts(self, first: Asked, second: Asked) -> Iterator[Pair]:
        """What meets next: items in turn, the values under each key as the first has them."""
        if first.head is None or second.head is None:
            return
        one, other = first.head.node, second.head.node
        if self.sheet.node(one).kind is Kind.ARRAY:
            for item, another in zip(self.sheet.items_of(one), self.sheet.items_of(other)):
                yield self.part(first, item), self.part(second, another)
        elif self.sheet.node(one).kind is Kind.OBJECT:
            others = fields_of(self.sheet, other)
            for key, value in fields_of(self.sheet, one).items():
                yield self.part(first, value), self.part(second, others[key])

    def part(self, asked: Asked, node: int) -> Meeting:
        side = asked.head.side
        if asked.at_itself():
            return self.met_at(side, node)
        return Meeting(self.place_of(side, node), asked.meeting.at, inside=True)
