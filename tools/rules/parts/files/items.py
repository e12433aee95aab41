"""An item of a file of parts, as JSON or a table has it."""

from typing import NamedTuple

NAMING = ("name", "id", "part")


class Number(NamedTuple):
    """A number as it is written."""

    text: str


class NoValue(NamedTuple):
    """What stands where a value should, and is none."""

    words: str


class Item(NamedTuple):
    """A part: its first line and its number in the file, from 1; its name, or none; its key."""

    line: int
    number: int
    name: str
    key: str | int
    value: object

    def title(self) -> str:
        return self.name or f"part {self.number}"


class BadItem(NamedTuple):
    """What can't be read, and its line; its title if the part is known."""

    line: int
    message: str
    title: str = ""


def item_of(line: int, number: int, value: object) -> Item:
    """An item of a list: its key is its index, its name what a field says that names it."""
    return Item(line, number, name_in(value), number - 1, value)


def name_in(value: object) -> str:
    if not isinstance(value, dict):
        return ""
    names = (value.get(field) for field in NAMING)
    said = (name.text if isinstance(name, Number) else name for name in names)
    return next((name for name in said if name and isinstance(name, str)), "")
