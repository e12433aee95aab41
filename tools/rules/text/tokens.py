"""The tokens of a line of rule text, with their places in bytes."""

import re
from enum import Enum
from typing import NamedTuple

from rules.text.source import part
from rules.text.strange import strange_at


class RuleTextError(Exception):
    """Text that can't be read, and the bytes that are to blame, in the part that `what` names.

    `if_planned` is more advice, for a rule that is planned and not run.
    """

    def __init__(self, message: str, start: int, end: int, if_planned: str = "") -> None:
        super().__init__(message)
        self.if_planned = if_planned
        self.start = start
        self.end = end
        self.what = "rule text"
        self.text = b""


class TokenKind(Enum):
    NAME = "name"
    NUMBER = "number"
    STRING = "string"
    RAW_STRING = "raw_string"
    SYMBOL = "symbol"
    END = "end"


class Token(NamedTuple):
    kind: TokenKind
    start: int
    end: int
    text: bytes

    def found(self) -> str:
        """The token as an error message names it."""
        if self.kind is TokenKind.END:
            return "the end of the text"
        return f"`{part(self.text, 0, len(self.text))}`"


KINDS = {kind.value: kind for kind in TokenKind}
BLANKS = re.compile(rb"[ \t]*")
COMMENT = b"#"
TOKEN = re.compile(
    rb"""
    (?P<name>[A-Za-z_][A-Za-z0-9_]*)
    | (?P<number>[0-9]+(?:\.[0-9]+)?(?:[eE][-+]?[0-9]+)?)
    | (?P<string>"(?:[^"\\]|\\.)*")
    | (?P<raw_string>`[^`]*`)
    | (?P<symbol>:=|==|!=|<=|>=|[-+*/%&|<>=:;,.()\[\]{}])
    """,
    re.VERBOSE,
)


def read_tokens(text: bytes) -> list[Token]:
    """All tokens, the end of the text as the last; it ends at a comment, or with the last byte."""
    check_line(text)
    tokens = []
    place = after_blanks(text, 0)
    while place < len(text) and not text.startswith(COMMENT, place):
        found = TOKEN.match(text, place)
        if found is None:
            raise RuleTextError(*strange_at(text, place))
        tokens.append(Token(KINDS[found.lastgroup], *found.span(), found.group()))
        place = after_blanks(text, found.end())
    tokens.append(Token(TokenKind.END, place, place, b""))
    return tokens


def check_line(text: bytes) -> None:
    try:
        text.decode()
    except UnicodeDecodeError as error:
        raise RuleTextError("rule text is UTF-8, this is not", error.start, error.end) from None
    line_end = re.search(rb"[\r\n]", text)
    if line_end:
        raise RuleTextError("rule text is one line, and it ends here", *line_end.span())


def after_blanks(text: bytes, place: int) -> int:
    blanks = BLANKS.match(text, place)
    return blanks.end() if blanks else place
