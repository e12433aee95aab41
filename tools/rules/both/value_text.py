"""A value of the tables as text, as it may stand in --on."""

import json

from rules.run.values import key_text, literal_of
from rules.tables.sheet import Sheet
from rules.text.rule_text import Kind


def value_text(sheet: Sheet, number: int) -> str:
    match sheet.node(number).kind:
        case Kind.ARRAY:
            items = (value_text(sheet, item) for item in sheet.items_of(number))
            return "[" + ", ".join(items) + "]"
        case Kind.OBJECT:
            items = sheet.items_of(number)
            fields = zip(items[::2], items[1::2])
            return "{" + ", ".join(field_text(sheet, *field) for field in fields) + "}"
        case _:
            return literal_text(sheet, number)


def field_text(sheet: Sheet, key: int, value: int) -> str:
    return f"{literal_text(sheet, key)}: {value_text(sheet, value)}"


def literal_text(sheet: Sheet, number: int) -> str:
    literal = literal_of(sheet, number)
    return quoted(key_text(literal)) if literal.kind is Kind.STRING else key_text(literal)


def quoted(text: str) -> str:
    """A string with JSON's escapes, for whatever doesn't print too."""
    characters = json.dumps(text, ensure_ascii=False)
    return "".join(
        character if character.isprintable() else json.dumps(character).strip('"')
        for character in characters
    )
