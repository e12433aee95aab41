"""Values whose numbers may be measured: a lowest and a highest number, as 17..19."""

import re

from rules.text.rule_text import Expression, Kind, Reader
from rules.text.tokens import RuleTextError, TokenKind

DOT = b"."
# Strings, which stay as they are, and line ends with the blanks around them.
LINE_ENDS = re.compile(rb'("(?:[^"\\]|\\.)*"|`[^`]*`)|\s*[\r\n]\s*')


def one_line(text: bytes) -> bytes:
    """A value that stands on several lines, as a file of JSON has it, on one."""
    return LINE_ENDS.sub(lambda found: found.group(1) or b" ", text.strip(b"\r\n"))


def read_value(text: bytes) -> Expression:
    """One expression alone, as a value is written; a range has its two ends as items."""
    value = ValueReader(text).whole()
    check_keys(value)
    return value


class ValueReader(Reader):
    """Reads numbers as ranges where two points and another number follow them."""

    def leaf(self) -> Expression:
        return self.ranged(super().leaf())

    def minus(self) -> Expression:
        return self.ranged(super().minus())

    def ranged(self, lowest: Expression) -> Expression:
        if lowest.kind is not Kind.NUMBER or not self.at_points():
            return lowest
        self.next(2)
        highest = self.end_of_range()
        return Expression(Kind.NUMBER, lowest.start, highest.end, (lowest, highest))

    def at_points(self) -> bool:
        """Two points follow the number that was read, without a blank."""
        points = self.peek(), self.peek(1)
        together = points[0].end == points[1].start
        return self.adjacent() and together and all(point.text == DOT for point in points)

    def end_of_range(self) -> Expression:
        start = self.peek().start
        below_zero = self.skip(b"-")
        if self.peek().kind is not TokenKind.NUMBER or (below_zero and not self.adjacent()):
            raise self.error(f"expected a range's highest number, found {self.peek().found()}")
        return Expression(Kind.NUMBER, start, self.next().end)


def check_keys(value: Expression) -> None:
    if value.kind is Kind.OBJECT:
        for key in value.items[::2]:
            if is_range(key):
                raise RuleTextError("a key is exact, it has no range", key.start, key.end)
    for item in value.items:
        check_keys(item)


def is_range(expression: Expression) -> bool:
    return expression.kind is Kind.NUMBER and expression.items != ()
