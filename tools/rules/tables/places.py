"""A place in the text of a rule or of its values, as it is told: in its own part."""

from rules.tables.paths import path_of
from rules.tables.sheet import GIVEN, ITEM, Sheet
from rules.text.rule_text import Kind
from rules.text.source import column, decoded, marked, part


def node_text(sheet: Sheet, number: int) -> str:
    """The source text of a node, cut if it is long; none of node 0."""
    text = text_of(sheet, number) if number else b""
    return part(text, 0, len(text))


def text_of(sheet: Sheet, number: int) -> bytes:
    """The source text of a node, with the values of names that were put into it."""
    node = sheet.node(number)
    if number not in sheet.filled:
        return sheet.text[node.start : node.end]
    items = [text_of(sheet, item) for item in sheet.items_of(number)]
    if node.kind is Kind.OBJECT:
        items = [b"%b: %b" % field for field in zip(items[::2], items[1::2])]
    opening, closing = (b"[", b"]") if node.kind is Kind.ARRAY else (b"{", b"}")
    return opening + b", ".join(items) + closing


def column_of(sheet: Sheet, number: int) -> int:
    """The column at which a node starts."""
    start = sheet.node(number).start
    here = sheet.part_of(start)
    return column(here.text, start - here.start)


def place_in_words(sheet: Sheet, number: int, asked: int = 0, here: int = 0) -> str:
    """Where a node stands: the column in a text that is shown, or the path in an item of a file.

    It is told at the node `here`, at which the name `asked` is asked for.
    """
    part = sheet.part_of(sheet.node(number).start)
    column = f"column {column_of(sheet, number)}"
    if part.what == ITEM:
        path = path_of(sheet, number)
        return f"at {path}" if path else column
    if part.what != GIVEN or (here and part == sheet.part_of(sheet.node(here).start)):
        return column
    if asked and sheet.name_of(asked) == part.name:
        return "given"
    given = f"given {decoded(part.name)}"
    return given if sheet.given[part.name] == number else f"{given}, {column}"


def marked_node(sheet: Sheet, number: int, label: str) -> str:
    node = sheet.node(number)
    return marked_place(sheet, node.start, node.end, label)


def marked_place(sheet: Sheet, start: int, end: int, label: str) -> str:
    here = sheet.part_of(start)
    return marked(here.text, start - here.start, end - here.start, label)
