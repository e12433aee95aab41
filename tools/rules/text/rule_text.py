"""Reads a line of rule text into expressions: `[x, x] = [1, y]`, `some k, [v] in xs`, a pattern.

Expressions that patterns know are read into their parts. Any other expression of Rego is one
expression of kind OTHER: operands are still looked at, so that its end is found, but what stands
inside the brackets of a call, a reference, a comprehension or in parentheses need only be balanced.
"""

from dataclasses import dataclass
from enum import IntEnum
from typing import NamedTuple

from rules.text.slips import rule_slip, unit_slip
from rules.text.tokens import RuleTextError, Token, TokenKind, read_tokens


class Kind(IntEnum):
    """Kinds of nodes, numbered as in a sheet."""

    STRING = 1
    RAW_STRING = 2
    NUMBER = 3
    BOOL = 4
    NULL = 5
    NAME = 6
    ARRAY = 7
    SET = 8
    OBJECT = 9
    OTHER = 10


class Operation(IntEnum):
    """What is planned, numbered as in a sheet."""

    PATTERN = 1
    COLON_EQUALS = 2
    EQUALS = 3
    SOME_IN = 4
    INDEX = 5
    PARAMETER = 6


class Expression(NamedTuple):
    """An expression and its bytes; the items of an object are key, value, key, value .."""

    kind: Kind
    start: int
    end: int
    items: tuple["Expression", ...] = ()


@dataclass(frozen=True)
class Rule:
    """A rule; first and second are left and right, or value pattern and collection."""

    text: bytes
    operation: Operation
    first: Expression
    second: Expression | None = None
    key: Expression | None = None


LITERALS = frozenset({Kind.STRING, Kind.RAW_STRING, Kind.NUMBER, Kind.BOOL, Kind.NULL})
WORDS = {b"true": Kind.BOOL, b"false": Kind.BOOL, b"null": Kind.NULL}
TOKENS = {
    TokenKind.STRING: Kind.STRING,
    TokenKind.RAW_STRING: Kind.RAW_STRING,
    TokenKind.NUMBER: Kind.NUMBER,
}
RESERVED = frozenset(b"as default else import in not package some with".split())
RESERVED_V1 = frozenset(b"contains every if".split())
OPERATORS = frozenset(b"+ - * / % & | == != < <= > >= in".split())
CLOSING = {b"(": b")", b"[": b"]", b"{": b"}"}
IN = frozenset({b"in"})
BAR = frozenset({b"|"})
NO_STOP: frozenset[bytes] = frozenset()

# The planner takes 32 levels; a few more are read, so that it is the planner that says so.
DEEPEST = 64


def read_rule(text: bytes, v1: bool = False) -> Rule:
    """A rule of Rego v0, or of v1, which has more reserved words."""
    reader = Reader(text)
    reader.reserved_v1 = RESERVED_V1 if v1 else frozenset()
    return reader.rule()


def read_expression(text: bytes) -> Expression:
    """One expression alone, as a value is written."""
    return Reader(text).whole()


class Reader:
    def __init__(self, text: bytes) -> None:
        self.text = text
        self.tokens = read_tokens(text)
        self.place = 0
        self.depth = 0
        self.reserved_v1: frozenset[bytes] = frozenset()
        self.in_rule = False

    def rule(self) -> Rule:
        self.in_rule = True
        self.expect_text("the rule")
        if self.at(b"some"):
            return self.some_in()
        first = self.expression()
        operation, second = Operation.PATTERN, None
        if self.at(b":=") or self.at(b"="):
            sign = self.next()
            operation = Operation.EQUALS if sign.text == b"=" else Operation.COLON_EQUALS
            second = self.expression()
        self.expect_end()
        return Rule(self.text, operation, first, second)

    def whole(self) -> Expression:
        self.expect_text("the value")
        expression = self.expression()
        self.expect_end()
        return expression

    def some_in(self) -> Rule:
        self.next()
        key, value = None, self.expression(IN)
        if self.skip(b","):
            key, value = value, self.expression(IN)
        self.expect(b"in")
        collection = self.expression()
        self.expect_end()
        return Rule(self.text, Operation.SOME_IN, value, collection, key)

    def expression(self, stop: frozenset[bytes] = NO_STOP) -> Expression:
        """Operands and the operators between them, up to one in `stop`."""
        first = last = self.operand()
        while self.peek().text in OPERATORS - stop:
            self.next()
            last = self.operand()
        return first if first is last else Expression(Kind.OTHER, first.start, last.end)

    def operand(self) -> Expression:
        self.depth += 1
        if self.depth > DEEPEST:
            raise self.error(f"this tool reads {DEEPEST} levels, here is one more")
        term = self.term()
        self.depth -= 1
        return term if term.kind in LITERALS else self.reference(term)

    def term(self) -> Expression:
        match self.peek().text:
            case b"[":
                return self.array()
            case b"{":
                return self.braces()
            case b"(":
                return self.balanced()
            case b"-":
                return self.minus()
            case b"set" if self.peek(1).text == b"(" and self.peek(2).text == b")":
                return Expression(Kind.SET, self.peek().start, self.next(3).end)
            case _:
                return self.leaf()

    def minus(self) -> Expression:
        """A negative number, or the minus of any other operand."""
        sign = self.next()
        number = self.peek()
        if number.kind is TokenKind.NUMBER and self.adjacent():
            self.next()
            return Expression(Kind.NUMBER, sign.start, number.end)
        return Expression(Kind.OTHER, sign.start, self.operand().end)

    def leaf(self) -> Expression:
        token = self.peek()
        if token.text in RESERVED:
            raise self.error(f"`{token.text.decode()}` is a reserved word, not a name")
        if token.text in self.reserved_v1:
            message = f"`{token.text.decode()}` is a reserved word of Rego v1, not a name"
            raise RuleTextError(message, token.start, token.end)
        if token.kind is TokenKind.NAME:
            kind = WORDS.get(token.text, Kind.NAME)
        elif token.kind in TOKENS:
            kind = TOKENS[token.kind]
        else:
            raise self.error(f"expected an expression, found {token.found()}")
        self.next()
        return Expression(kind, token.start, token.end)

    def reference(self, head: Expression) -> Expression:
        """The head with the calls, brackets and fields that follow it without a blank."""
        whole = head
        while self.adjacent() and self.peek().text in (b"(", b"[", b"."):
            if self.skip(b"."):
                end = self.field_name().end
            else:
                end = self.balanced().end
            whole = Expression(Kind.OTHER, head.start, end)
        return whole

    def field_name(self) -> Token:
        if self.peek().kind is not TokenKind.NAME:
            raise self.error(f"expected a field's name, found {self.peek().found()}")
        return self.next()

    def array(self) -> Expression:
        opening = self.place
        self.next()
        items: list[Expression] = []
        if not self.at(b"]"):
            items.append(self.expression(BAR))
            if self.at(b"|"):
                return self.comprehension(opening)
            self.more_items(items, b"]")
        return self.close(Kind.ARRAY, opening, items, b"]")

    def braces(self) -> Expression:
        opening = self.place
        self.next()
        if self.at(b"}"):
            return self.close(Kind.OBJECT, opening, [], b"}")
        items = [self.expression(BAR)]
        kind = Kind.OBJECT if self.skip(b":") else Kind.SET
        if kind is Kind.OBJECT:
            items.append(self.expression(BAR))
        if self.at(b"|"):
            return self.comprehension(opening)
        if kind is Kind.OBJECT:
            self.more_fields(items)
        else:
            self.more_items(items, b"}")
        return self.close(kind, opening, items, b"}")

    def more_items(self, items: list[Expression], closing: bytes) -> None:
        while self.skip(b",") and not self.at(closing):
            items.append(self.expression())

    def more_fields(self, items: list[Expression]) -> None:
        while self.skip(b",") and not self.at(b"}"):
            items.append(self.expression())
            self.expect(b":")
            items.append(self.expression())

    def close(
        self, kind: Kind, opening: int, items: list[Expression], closing: bytes
    ) -> Expression:
        if not self.at(closing):
            # One expression in braces may be a key.
            colon = "`:`, " if kind is Kind.SET and len(items) == 1 else ""
            wanted = f"{colon}`,` or `{closing.decode()}`"
            raise self.error(f"expected {wanted}, found {self.peek().found()}")
        end = self.next().end
        return Expression(kind, self.tokens[opening].start, end, tuple(items))

    def comprehension(self, opening: int) -> Expression:
        self.place = opening
        return self.balanced()

    def balanced(self) -> Expression:
        """An opening bracket and all up to the one that closes it."""
        first = self.peek()
        open_brackets: list[Token] = []
        while True:
            token = self.peek()
            if token.text in CLOSING:
                open_brackets.append(token)
            elif token.kind is TokenKind.END or token.text in CLOSING.values():
                self.check_closing(open_brackets.pop(), token)
            end = self.next().end
            if not open_brackets:
                return Expression(Kind.OTHER, first.start, end)

    def check_closing(self, opening: Token, closing: Token) -> None:
        wanted = CLOSING[opening.text]
        if closing.text != wanted:
            message = f"this has no closing `{wanted.decode()}` before {closing.found()}"
            raise RuleTextError(message, opening.start, opening.end)

    def peek(self, ahead: int = 0) -> Token:
        """The next token, or one after it; behind the last there are only ends."""
        place = self.place + ahead
        return self.tokens[place] if place < len(self.tokens) else self.tokens[-1]

    def next(self, count: int = 1) -> Token:
        """Goes over tokens and returns the last of them."""
        self.place += count
        return self.tokens[self.place - 1]

    def at(self, text: bytes) -> bool:
        return self.peek().text == text

    def adjacent(self) -> bool:
        """No blank stands before the next token."""
        return self.tokens[self.place - 1].end == self.peek().start

    def skip(self, text: bytes) -> bool:
        found = self.at(text)
        if found:
            self.next()
        return found

    def expect(self, text: bytes) -> None:
        if not self.skip(text):
            raise self.error(f"expected `{text.decode()}`, found {self.peek().found()}")

    def expect_text(self, what: str) -> None:
        if self.peek().kind is TokenKind.END:
            raise self.error(f"{what} is empty")

    def expect_end(self) -> None:
        if self.peek().kind is not TokenKind.END:
            found = f"expected the end of the text, found {self.peek().found()}"
            raise self.error(found, at_end=True)

    def error(self, message: str, at_end: bool = False) -> RuleTextError:
        """Why the next token can't stand here, or what is meant by it."""
        token = self.peek()
        before = self.tokens[self.place - 1] if self.place else None
        meant = unit_slip(before, token)
        if self.in_rule:
            meant = meant or rule_slip(before, token, at_end)
        return RuleTextError(meant or message, token.start, token.end)
