"""What the writer of a rule may have meant instead."""

from collections.abc import Iterator

from rules.tables.sheet import Sheet
from rules.text.rule_text import CLOSING, Kind, Operation, read_rule
from rules.text.source import decoded, part
from rules.text.tokens import RuleTextError, Token, read_tokens

# Values as other languages write them, and as rule text does.
VALUES_WRITTEN = {
    "True": "true",
    "TRUE": "true",
    "False": "false",
    "FALSE": "false",
    "None": "null",
    "NULL": "null",
    "Null": "null",
    "nil": "null",
}


# Signs that compare and bind nothing, what is written instead, and what for.
INSTEAD = {
    b"==": "`==` compares and binds nothing; to match both sides, write: ",
    b"in": "`in` asks and binds nothing; to take items, write: ",
}


def hint_of(sheet: Sheet) -> str:
    """A line for each hint."""
    return "\n".join(f"hint: {hint}" for hint in [*name_hints(sheet), *sign_hints(sheet)])


def name_hints(sheet: Sheet) -> Iterator[str]:
    """Of names that other languages have as values."""
    for name in map(decoded, sheet.names):
        if name in VALUES_WRITTEN:
            yield f"`{name}` is a name here; the value is written {VALUES_WRITTEN[name]}"


def sign_hints(sheet: Sheet) -> Iterator[str]:
    """Of a comparison by `==`, or by `in`."""
    sign = comparison(sheet)
    if sign is None:
        return
    text = sheet.parts[0].text
    equation = text[: sign.start] + b"=" + text[sign.end :]
    instead = equation if sign.text == b"==" else b"some " + text
    try:
        read_rule(instead)
    except RuleTextError:
        return
    yield INSTEAD[sign.text] + part(instead, 0, len(instead))


def comparison(sheet: Sheet) -> Token | None:
    """The first such sign outside of brackets in a rule that is one expression, taken whole."""
    whole = sheet.node(sheet.roots[0]).kind is Kind.OTHER
    if sheet.operation is not Operation.PATTERN or not whole:
        return None
    depth = 0
    for token in read_tokens(sheet.parts[0].text):
        depth += (token.text in CLOSING) - (token.text in CLOSING.values())
        if depth == 0 and token.text in INSTEAD:
            return token
    return None
