"""What the text of a number or a string stands for."""

import json

from rules.text.tokens import RuleTextError

# The digits of the largest number, and a sheet's column for it.
NUMBER_COLUMN = 20
LOWEST = -(2**63)
HIGHEST = 2**64 - 1


def number_value(text: bytes, start: int) -> int:
    """A whole number from LOWEST to HIGHEST, written as a sheet writes it."""
    end = start + len(text)
    digits = text.removeprefix(b"-")
    if not digits.isdigit():
        raise RuleTextError(*not_whole(text.decode(), start, end))
    if digits != b"0" and digits.startswith(b"0"):
        raise RuleTextError("a number has no leading zeros", start, end)
    if text == b"-0":
        raise RuleTextError("there is no minus zero, write 0", start, end)
    below_zero = text.startswith(b"-")
    if below_zero and (len(digits) > NUMBER_COLUMN or int(text) < LOWEST):
        raise RuleTextError(f"this number is below the lowest, {LOWEST}", start, end)
    if len(digits) > NUMBER_COLUMN or int(text) > HIGHEST:
        raise RuleTextError(f"this number is above the highest, {HIGHEST}", start, end)
    return int(text)


def not_whole(text: str, start: int, end: int) -> tuple[str, int, int, str]:
    """What to write instead of a number with a point or an exponent, and if it is only planned."""
    message = "this number is not written as a whole one: write "
    if len(text) > NUMBER_COLUMN or "e" in text.lower():
        return f"{message}it without point and exponent", start, end, ""
    whole, _, fraction = text.partition(".")
    fraction = fraction.rstrip("0")
    counted = int(whole + fraction)
    if not fraction:
        return f"{message}{counted}", start, end, ""
    unit = f"count in a unit {10 ** len(fraction)} times smaller"
    whole_instead = f", or write ({text}), which is compared whole"
    return f"{message}{counted} and {unit}", start, end, whole_instead


def string_value(text: bytes, start: int) -> bytes:
    """The bytes that a string with JSON's escapes stands for."""
    try:
        value = json.loads(text.decode())
    except json.JSONDecodeError as error:
        place = start + len(text.decode()[: error.pos].encode())
        raise RuleTextError(f"in a string as in JSON: {error.msg}", place, place + 1) from None
    try:
        return value.encode()
    except UnicodeEncodeError:
        message = "half of a \\u pair stands in this string, which has no bytes"
        raise RuleTextError(message, start, start + len(text)) from None
