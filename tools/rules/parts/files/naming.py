"""The fields that a pattern names: what is left of a part with --open."""

from rules.run.values import key_text, literal_of
from rules.tables.sheet import Sheet
from rules.text.rule_text import LITERALS, Kind

# What a pattern says of a value: the fields of an object, the items of an array, or nothing.
Shape = dict[str, "Shape"] | list["Shape"] | None


def shape_of(sheet: Sheet, pattern: int) -> Shape:
    node = sheet.node(pattern)
    if node.kind is Kind.ARRAY:
        return [shape_of(sheet, item) for item in sheet.items_of(pattern)]
    if node.kind is not Kind.OBJECT:
        return None
    items = sheet.items_of(pattern)
    fields = zip(items[::2], items[1::2])
    return {
        key_text(literal_of(sheet, key)): shape_of(sheet, value)
        for key, value in fields
        if sheet.node(key).kind in LITERALS
    }


def only_named(shape: Shape, value: object) -> object:
    """The value without the fields that the shape hasn't, at every depth."""
    if isinstance(shape, dict) and isinstance(value, dict):
        return {key: only_named(shape[key], item) for key, item in value.items() if key in shape}
    if isinstance(shape, list) and isinstance(value, list) and len(shape) == len(value):
        return [only_named(*pair) for pair in zip(shape, value)]
    return value
