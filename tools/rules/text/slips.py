"""Slips that are usual in rule text: tokens that can't stand where they do, and what is meant."""

from rules.text.tokens import Token, TokenKind

ONE_LINE = (
    "plan_rule takes one line of a rule's body: LEFT = RIGHT, LEFT := RIGHT, some VALUE in XS,"
    " or a pattern"
)
SEVERAL_LINES = f"{ONE_LINE} (several lines stand in a file: --body FILE)"
ALL = "one line is one rule: lines that all have to hold stand below each other"
EITHER = "one line is one rule: what may hold instead stands in a rule of its own"
# What a line can't begin with, and what can't follow a whole rule.
FIRST = frozenset(b"package import default not every else with".split())
EVERY = b"every"
UNITS = frozenset(b"mm cm dm m km inch inches ft foot feet kg g deg".split())
BEHIND = frozenset(b"{ if contains else with".split())
JOINED = {b"&": ALL, b"|": EITHER, b"and": ALL, b"or": EITHER, b";": SEVERAL_LINES}


def unit_slip(before: Token | None, token: Token) -> str:
    """A unit behind a number, as in 18 mm."""
    if before is None or before.kind is not TokenKind.NUMBER or token.text not in UNITS:
        return ""
    return f"a number has no unit: write {before.text.decode()}"


def rule_slip(before: Token | None, token: Token, at_end: bool) -> str:
    """What is more than one line of a body; `at_end` if a whole rule stands before the token."""
    first = before is None and token.text in FIRST
    if first or (before is not None and before.text == EVERY):
        return ONE_LINE
    doubled = before is not None and before.text == token.text and before.end == token.start
    if token.text in JOINED and (at_end or doubled):
        return JOINED[token.text]
    return ONE_LINE if at_end and token.text in BEHIND else ""
