"""The side of a rule that stands for values from elsewhere, such as the parts of a file."""

from rules.text.rule_text import Expression, Kind, Operation, Rule

# `parts`, `input.parts`.
REFERENCES = (Kind.NAME, Kind.OTHER)


def supplied_side(rule: Rule) -> Expression | None:
    """A some-in collection; of `=` and `:=` the side that is a name or a reference, if one is."""
    match rule.operation:
        case Operation.SOME_IN:
            return rule.second
        case Operation.COLON_EQUALS:
            sides = [rule.second]
        case Operation.EQUALS:
            sides = [rule.second, rule.first]
        case _:
            sides = []
    return next((side for side in sides if side and side.kind in REFERENCES), None)


def supplied_name(rule: Rule) -> bytes | None:
    """The name that is such a side."""
    side = supplied_side(rule)
    named = side is not None and side.kind is Kind.NAME
    return rule.text[side.start : side.end] if side and named else None
