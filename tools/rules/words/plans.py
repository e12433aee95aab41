"""Plans in words: the form, then the entries as a tree."""

from collections.abc import Iterator, Mapping
from typing import NamedTuple

from rules.tables.listing import Entry, EntryKind, ListingError, Plan
from rules.tables.places import column_of, node_text
from rules.tables.sheet import Sheet
from rules.text.rule_text import LITERALS, Operation
from rules.text.source import decoded, shown
from rules.words.origins import origins_of

ONE_PATTERN = (0, 0)
WITH_KEY = (1, 0)

class Form(NamedTuple):
    """The name of a form, its words, where {first} and {second} are the roots' text, its side."""

    name: str
    words: str
    side: str = ""

    def full_name(self) -> str:
        return f"{self.name} {self.side}".rstrip()


class Row(NamedTuple):
    """An entry in words: the column of its node, how many entries are above it."""

    column: int
    depth: int
    words: str


# By the two numbers of a plan, form and side.
FORMS = {
    Operation.PATTERN: {ONE_PATTERN: Form("pattern", "a pattern")},
    Operation.INDEX: {ONE_PATTERN: Form("index", "an index")},
    Operation.PARAMETER: {ONE_PATTERN: Form("parameter", "a parameter")},
    Operation.SOME_IN: {
        ONE_PATTERN: Form(
            "some-in", "some-in: the pattern is matched with the items of {second}"
        ),
        WITH_KEY: Form(
            "some-in with key",
            "some-in with key: key and value are matched with those of {second}",
        ),
    },
    Operation.COLON_EQUALS: {
        (1, 0): Form(":=", "`:=`: the left side is matched with the value of {second}"),
    },
    Operation.EQUALS: {
        (2, 0): Form(
            "bind left", "bind left: the left side is matched with the value of {second}"
        ),
        (3, 0): Form(
            "bind right", "bind right: the right side is matched with the value of {first}"
        ),
        (4, 0): Form(
            "pairs", "pairs: both sides bind, and are matched part by part in this order"
        ),
        (5, 0): Form(
            "equality check",
            "equality check: nothing is bound, the values of both sides are compared",
        ),
        (6, 1): Form(
            "wildcard", "wildcard left: _ is matched with {second}, nothing is bound", "left"
        ),
        (6, 2): Form(
            "wildcard", "wildcard right: _ is matched with {first}, nothing is bound", "right"
        ),
        (6, 3): Form("wildcard", "wildcard both: _ is matched with _, nothing is bound", "both"),
    },
}


def plan_in_words(sheet: Sheet, plan: Plan, before: Mapping[bytes, str] = {}) -> str:
    """The form and the entries; `before` says where names of earlier lines have their values."""
    lines = [shown(decoded(sheet.parts[0].text)), f"planned as {form_in_words(sheet, plan)}"]
    if plan.entries:
        lines.append("column  plan")
    for row in rows_of(sheet, plan, before):
        lines.append(f"{row.column:6}  {'  ' * row.depth}{row.words}")
    return "\n".join(lines) + "\n"


def rows_of(
    sheet: Sheet, plan: Plan, before: Mapping[bytes, str] = {}
) -> Iterator[Row]:
    roots_met = 0
    for entry, origin in zip(plan.entries, origins_of(sheet, plan, before)):
        words = role_in_words(sheet, plan, entry, roots_met) + entry_in_words(sheet, entry)
        words += f", {origin}" if origin else ""
        yield Row(column_of(sheet, entry.node), entry.depth, words)
        roots_met += entry.depth == 0


def form_of(sheet: Sheet, plan: Plan) -> Form:
    form = FORMS[sheet.operation].get((plan.form, plan.side))
    if form is None:
        raise ListingError(f"form {plan.form} with side {plan.side} is none of this operation")
    return form


def form_in_words(sheet: Sheet, plan: Plan) -> str:
    first, second, _ = sheet.roots
    roots = {"first": node_text(sheet, first), "second": node_text(sheet, second)}
    return form_of(sheet, plan).words.format(**roots)


def role_in_words(sheet: Sheet, plan: Plan, entry: Entry, roots_met: int) -> str:
    """What an entry is to the one above it: a field as written; or key or value of some-in."""
    if entry.key:
        computed = "" if sheet.node(entry.key).kind in LITERALS else "computed key "
        return f"field {entry.position}, {computed}{node_text(sheet, entry.key)}: "
    if sheet.operation is Operation.SOME_IN and (plan.form, plan.side) == WITH_KEY:
        if entry.depth == 0:
            return "value: " if roots_met else "key: "
    return ""


def entry_in_words(sheet: Sheet, entry: Entry) -> str:
    text = node_text(sheet, entry.node)
    match entry.kind:
        case EntryKind.BIND:
            return f"bind {text}"
        case EntryKind.IGNORE:
            return f"ignore {text}"
        case EntryKind.COMPARE_EXPRESSION:
            return f"compare {text}"
        case EntryKind.COMPARE_LITERAL:
            return f"compare literal {text}"
        case EntryKind.ARRAY:
            return f"array of {entry.children} {text}"
        case EntryKind.OBJECT:
            return f"object of {fields_in_words(sheet, entry)} {text}"
        case EntryKind.PAIR:
            return f"pair: value side {text}"


def fields_in_words(sheet: Sheet, entry: Entry) -> str:
    written = sheet.node(entry.node).count
    if written == entry.children:
        return str(written)
    return f"{entry.children}, {written} written (a repeated key keeps its last field)"
