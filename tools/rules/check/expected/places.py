"""Columns in a line of a file of rules, for places in the texts that stand in it."""

from rules.check.lines import Line
from rules.tables.sheet import KEY, RULE, Sheet
from rules.text.source import column


def column_of(line: Line, text: bytes, place: int) -> int:
    """The column of a place in the rule or in a value of the line, or else where the answer stands.

    An option's value may be written in another way than it is read.
    """
    in_rule = text == line.rule.text
    start = line.rule.start if in_rule else line.text.find(text, line.expected.start)
    if start < 0 or not text:
        return column(line.text, line.expected.start)
    return column(line.text, start + place)


def column_in(line: Line, sheet: Sheet, place: int) -> int:
    """The column of a place of the tables' text."""
    part = sheet.part_of(place)
    if part.what == RULE:
        return column(line.text, line.rule.start + place)
    if part.what == KEY:
        # The index of an item stands nowhere.
        return column(line.text, line.expected.start)
    return column_of(line, part.text, place - part.start)
