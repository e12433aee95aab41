"""Listings written by hand, and what is said of them."""

from dataclasses import replace

from rules.tables.listing import Refusal, read_listing
from rules.tables.sheet import Scope, Sheet, sheet_of
from rules.text.rule_text import Operation, read_rule
from rules.words.plans import plan_in_words
from rules.words.refusals import refusal_in_words


def sheet(text: str, operation: Operation | None = None) -> Sheet:
    rule = read_rule(text.encode())
    return sheet_of(replace(rule, operation=operation or rule.operation), Scope())


def listing(lines: str) -> bytes:
    """Numbers parted by blanks, lines by commas, as a listing."""
    rows = [line.split() for line in lines.split(",")]
    return "".join("".join(f"{word:>6}" for word in row) + "\n" for row in rows).encode()


def words(text: str, lines: str, operation: Operation | None = None) -> list[str]:
    rule_sheet = sheet(text, operation)
    found = read_listing(listing(lines), len(rule_sheet.nodes))
    in_words = refusal_in_words if isinstance(found, Refusal) else plan_in_words
    return in_words(rule_sheet, found).splitlines()
