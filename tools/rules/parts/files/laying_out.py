"""A part's value as rule text, with the expressions that stand in it."""

import json
import re
from collections.abc import Iterable

from rules.parts.files.items import NoValue, Number
from rules.text.literals import HIGHEST, LOWEST, NUMBER_COLUMN
from rules.text.rule_text import DEEPEST, Expression, Kind

NUMBER = re.compile(r"(-?)([0-9]+)(?:\.([0-9]+))?(?:[eE]([-+]?[0-9]+))?")
END = r"-?[0-9]+(?:\.[0-9]+)?"
RANGE = re.compile(rf"({END})\.\.({END})")
SCALES = (1, 10, 100, 1000)
# No exponent that is larger makes a number that a rule can have.
LONGEST_EXPONENT = 6
WORDS = {True: (Kind.BOOL, b"true"), False: (Kind.BOOL, b"false"), None: (Kind.NULL, b"null")}


class BadValue(Exception):
    """Why a value is none of a rule, and the path to the place."""

    def __init__(self, message: str) -> None:
        super().__init__(message)
        self.path: list[str | int] = []


class Layout:
    """Writes a value's text; numbers are counted in a unit `scale` times smaller."""

    def __init__(self, scale: int) -> None:
        self.text = bytearray()
        self.scale = scale
        self.depth = 0

    def value(self, value: object) -> Expression:
        if isinstance(value, Number):
            return self.number(value.text)
        if isinstance(value, str):
            return self.string(value)
        if isinstance(value, list | dict):
            return self.nested(value)
        if isinstance(value, NoValue):
            raise BadValue(value.words)
        return self.leaf(*WORDS[value])

    def leaf(self, kind: Kind, text: bytes) -> Expression:
        start = len(self.text)
        self.text += text
        return Expression(kind, start, len(self.text))

    def string(self, value: str) -> Expression:
        """A tolerance, or a string."""
        ends = RANGE.fullmatch(value)
        return self.range(*ends.groups()) if ends else self.leaf(Kind.STRING, quoted(value))

    def number(self, text: str) -> Expression:
        return self.leaf(Kind.NUMBER, str(whole(text, self.scale)).encode())

    def range(self, lowest: str, highest: str) -> Expression:
        first = self.number(lowest)
        self.text += b".."
        last = self.number(highest)
        return Expression(Kind.NUMBER, first.start, last.end, (first, last))

    def nested(self, value: list[object] | dict[str, object]) -> Expression:
        self.depth += 1
        if self.depth >= DEEPEST:
            raise BadValue(f"this tool reads {DEEPEST} levels, here is one more")
        found = self.object(value) if isinstance(value, dict) else self.array(value)
        self.depth -= 1
        return found

    def array(self, value: list[object]) -> Expression:
        start = len(self.text)
        items = self.items(b"[", enumerate(value), keys=False)
        self.text += b"]" if value else b"[]"
        return Expression(Kind.ARRAY, start, len(self.text), tuple(items))

    def object(self, value: dict[str, object]) -> Expression:
        start = len(self.text)
        items = self.items(b"{", value.items(), keys=True)
        self.text += b"}" if value else b"{}"
        return Expression(Kind.OBJECT, start, len(self.text), tuple(items))

    def items(
        self, opening: bytes, items: Iterable[tuple[str | int, object]], keys: bool
    ) -> list[Expression]:
        """Behind the opening bracket, or a comma each; keys are exact."""
        found: list[Expression] = []
        for key, item in items:
            self.text += b", " if found else opening
            try:
                if keys:
                    found.append(self.key(str(key)))
                found.append(self.value(item))
            except BadValue as error:
                error.path.insert(0, key)
                raise
        return found

    def key(self, key: str) -> Expression:
        found = self.leaf(Kind.STRING, quoted(key))
        self.text += b": "
        return found


def quoted(text: str) -> bytes:
    """A string as rule text has it."""
    try:
        return json.dumps(text, ensure_ascii=False).encode()
    except UnicodeEncodeError:
        raise BadValue("half of a \\u pair stands in a string") from None


def whole(text: str, scale: int) -> int:
    """A number in a unit `scale` times smaller, to the last digit."""
    found = NUMBER.fullmatch(text)
    if found is None:
        raise BadValue(f"{text} is no number")
    sign, first, fraction, exponent = found.groups("")
    all_digits = (first + fraction).lstrip("0")
    digits = all_digits.rstrip("0")
    zeros = len(all_digits) - len(digits) - len(fraction) + shift(exponent)
    zeros += SCALES.index(scale)
    if digits and zeros < 0:
        raise BadValue(not_whole(text, -zeros + SCALES.index(scale)))
    if digits and len(digits) + zeros > NUMBER_COLUMN:
        raise out_of_range(text)
    number = int(sign + (digits + "0" * zeros if digits else "0"))
    if not LOWEST <= number <= HIGHEST:
        raise out_of_range(text)
    return number


def shift(exponent: str) -> int:
    sign = -1 if exponent.startswith("-") else 1
    digits = exponent.lstrip("+-").lstrip("0") or "0"
    return sign * (int(digits) if len(digits) <= LONGEST_EXPONENT else 10**LONGEST_EXPONENT)


def not_whole(text: str, digits: int) -> str:
    if digits < len(SCALES):
        return f"{text} is not whole: --scale {SCALES[digits]} counts in a smaller unit"
    return f"{text} is not whole, in thousandths either"


def out_of_range(text: str) -> BadValue:
    return BadValue(f"{text} is outside of a rule's numbers, {LOWEST} to {HIGHEST}")
