"""What meets at the place of a refusal 18, in words, and what may be done about it."""

from rules.run.meetings import Meeting, computed_keys, meetings
from rules.tables.places import node_text
from rules.tables.sheet import RESPECT_PARENT, WILDCARD, Sheet
from rules.text.rule_text import Kind

OPPOSED = {Kind.ARRAY, Kind.OBJECT}
KINDS = {Kind.ARRAY: "an array", Kind.OBJECT: "an object"}
BOTH_SHAPES = "an array never equals an object: write both as arrays, or both as objects"
NO_NAME = "the rule may be right: write a value, or a name that has one, in place of a `_`"


def meeting_at(sheet: Sheet, place: int) -> Meeting | None:
    """The first two nodes that meet there and can't be planned."""
    left, right, _ = sheet.roots
    met = [pair for pair in meetings(sheet, left, right) if place in pair]
    blamed = [pair for pair in met if are_opposed(sheet, pair) or both_bind(sheet, pair)]
    return next(iter(blamed + met), None)


def are_opposed(sheet: Sheet, pair: Meeting) -> bool:
    """An array stands against an object."""
    return {sheet.node(node).kind for node in pair} == OPPOSED


def both_bind(sheet: Sheet, pair: Meeting) -> bool:
    return all(any(binders(sheet, node)) for node in pair)


def binders(sheet: Sheet, number: int) -> list[bytes]:
    """`_` and the names without a value at or below a node, where a pattern would bind them."""
    node = sheet.node(number)
    if node.kind is Kind.NAME:
        name = sheet.name_of(number)
        return [] if sheet.scope.is_known(name, RESPECT_PARENT) else [name]
    items = sheet.items_of(number) if node.kind in OPPOSED else []
    values = items[1::2] if node.kind is Kind.OBJECT else items
    return list(dict.fromkeys(name for item in values for name in binders(sheet, item)))


def meeting_in_words(sheet: Sheet, pair: Meeting, place: int) -> str:
    """What stands at the place, and against what."""
    left, right = (named(sheet, node) for node in pair)
    if are_opposed(sheet, pair):
        here, other = pair if place == pair.left else pair[::-1]
        kinds = KINDS[sheet.node(here).kind], KINDS[sheet.node(other).kind]
        return f"{kinds[0]} stands here against {kinds[1]}, {node_text(sheet, other)}"
    if are_names(sheet, pair):
        if left == right:
            return f"{left} stands on both sides, and has no value yet"
        return f"neither {left} nor {right} has a value yet"
    computed = [node for node in pair if has_computed_key(sheet, node)]
    if computed and all(sheet.node(node).kind is Kind.OBJECT for node in pair):
        return f"{named(sheet, computed[0])} has a computed key, and both sides bind"
    return f"{left} and {right} both bind"


def named(sheet: Sheet, number: int) -> str:
    text = node_text(sheet, number)
    return f"`{text}`" if sheet.node(number).kind is Kind.NAME else text


def are_names(sheet: Sheet, pair: Meeting) -> bool:
    names = [sheet.node(node).kind is Kind.NAME for node in pair]
    return all(names) and WILDCARD not in map(sheet.name_of, pair)


def has_computed_key(sheet: Sheet, number: int) -> bool:
    return sheet.node(number).kind is Kind.OBJECT and computed_keys(sheet, number) != []


def advice_of(sheet: Sheet, pair: Meeting) -> str:
    """What to write instead, where the rule may be right."""
    if are_opposed(sheet, pair):
        return BOTH_SHAPES
    held = held_in_itself(sheet, pair)
    if held:
        return f"no value holds itself, as `{held.decode()}` would: take another name at one place"
    names = names_to_give(sheet, pair)
    if not names:
        return NO_NAME
    listed = ",".join(name.decode() for name in names)
    several = " and ".join(f"`{name.decode()}`" for name in names)
    whom = "one of them" if are_two_names(sheet, pair) else several
    # A name that an option marks is not bound by another option.
    option = "" if any(map(sheet.scope.marks.get, names)) else f" or --bound {listed}"
    value = "a value" if len(names) == 1 else "values"
    return f"the rule may be right: give {whom} {value}, by a line before it{option}"


def held_in_itself(sheet: Sheet, pair: Meeting) -> bytes:
    """A name that meets an array or an object with the same name in it, or nothing."""
    for name, other in (pair, pair[::-1]):
        if sheet.node(name).kind is Kind.NAME and sheet.node(other).kind in OPPOSED:
            if sheet.name_of(name) in binders(sheet, other):
                return sheet.name_of(name) if sheet.name_of(name) != WILDCARD else b""
    return b""


def are_two_names(sheet: Sheet, pair: Meeting) -> bool:
    return are_names(sheet, pair) and len({sheet.name_of(node) for node in pair}) == 2


def names_to_give(sheet: Sheet, pair: Meeting) -> list[bytes]:
    """The fewest names of one side after which that side binds nothing; the right one's first."""
    sides = [binders(sheet, node) for node in reversed(pair)]
    without_blanks = [names for names in sides if WILDCARD not in names]
    return min(without_blanks, key=len, default=[])
