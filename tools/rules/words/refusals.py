"""What the numbers of refusals mean."""

from dataclasses import dataclass

from rules.tables.listing import Refusal, RunRefusal
from rules.tables.places import marked_node
from rules.tables.sheet import Sheet
from rules.words.conclusions import conclusions_in_words
from rules.words.meetings import meeting_at, meeting_in_words
from rules.words.oversize import long_name, too_deep

LIMITS = {
    "nodes": 512,
    "child entries": 512,
    "numbers": 256,
    "names": 128,
    "string bytes": 8192,
    "text bytes": 16384,
}


@dataclass(frozen=True)
class Meaning:
    """The Rust's name of a refusal, its meaning, and what its place and its counts are.

    In `place`, {meets} stands for what meets there, {what} for what a run can't have there.
    """

    title: str
    meaning: str
    place: str = ""
    counts: str = ""
    node_in_first_count: str = ""


# 1 to 4 are of the tables, which the lines of a body, or two patterns, share.
LAST_OF_TABLES = 4
UNREADABLE = 7
NO_WAY = 18
# Pattern and value can't fit.
BY_STRUCTURE = (13, 14)

# Refusals of the tables as a whole, whose places the tool finds.
OF_TABLES = {2: long_name, 3: too_deep}

UNKNOWN = Meaning("unknown", "this tool has no words for it", "the place", "counts {0} and {1}")

MEANINGS = {
    1: Meaning(
        "over a limit", "the rule, with the values for a run, is larger than the planner takes"
    ),
    2: Meaning(
        "tables broken",
        "the tables break their rules (from rule text: a name longer than 255 bytes)",
    ),
    3: Meaning("too deep", "more than 32 levels, the innermost item counted"),
    4: Meaning("name twice", "the sheet lists a name twice, which no rule text leads to"),
    5: Meaning("no root", "the sheet names a node that it hasn't, which no rule text leads to"),
    6: Meaning(
        "plan too large",
        "the plan doesn't fit into the plan buffer (1536 entries, or what --entries says)",
        counts="entries needed: {0}",
    ),
    UNREADABLE: Meaning(
        "unreadable", "the planner can't read the sheet, which no rule text leads to"
    ),
    11: Meaning(
        "ColonEqualsRequiresBindableLeft",
        "the left of := has no name to bind and no _",
        "the left side",
    ),
    12: Meaning(
        "ArraySizeMismatch",
        "both sides bind, and two arrays to be paired item by item have different lengths",
        "the left array",
        "items of the left array: {0}, of the right array: {1}",
    ),
    13: Meaning(
        "ArrayLengthMismatch",
        "an array of the value hasn't the length that the pattern asks for",
        "the value's array",
        "items expected by the pattern: {0}, items of the value: {1}",
    ),
    14: Meaning(
        "ObjectLiteralKeysMismatch",
        "an object of the value hasn't the literal keys that the pattern asks for",
        "the value's object",
        node_in_first_count="the pattern's object",
    ),
    15: Meaning(
        "ObjectFieldCountMismatch",
        "both sides bind, and two objects to be paired key by key differ in their fields",
        "the left object",
        "different keys of the left object: {0}, fields of the right object: {1}",
    ),
    16: Meaning(
        "ObjectKeyNotFound",
        "both sides bind, and the left object hasn't this key of the right object",
        "the right key",
    ),
    17: Meaning(
        "VariableAlreadyDefined",
        "a name that this rule has to define is defined already",
        "the name",
    ),
    NO_WAY: Meaning(
        "IncompatibleDestructuringPatterns",
        "there is no way to plan this here",
        "{meets}",
    ),
    20: Meaning(
        "list too short", "fewer values than names are listed, which no rule text leads to"
    ),
    21: Meaning(
        "pattern not simple",
        "a run takes a pattern of names, literals, arrays, and objects with literal keys that"
        " differ",
        "{what}",
    ),
    22: Meaning(
        "not a value",
        "a value is made of literals, arrays, and objects with literal keys that differ",
        "{what}",
    ),
    23: Meaning(
        "name without value",
        "the pattern compares with a name that is bound, and no value is given for it (--given)",
        "{what}",
    ),
    31: Meaning(
        "reserved name",
        "Rego v1 reserves `input` and `data`, which no rule may give a value",
        "the name",
    ),
    36: Meaning(
        "value too large",
        "the example that both patterns match has more than 512 nodes, or more than 32 levels",
    ),
    37: Meaning("not a body", "a rule body has 1 to 64 lines"),
    38: Meaning(
        "name not ready",
        "a name is read here that is neither known nor bound by an earlier line or pair",
        "the name",
    ),
    32: Meaning("range wrong", "a range's lowest number is above its highest", "{what}"),
}


def meaning_of(refusal: Refusal) -> Meaning:
    return MEANINGS.get(refusal.number, UNKNOWN)


def refusal_in_words(sheet: Sheet, refusal: Refusal) -> str:
    places = [marked_node(sheet, node, label) for node, label in places_of(sheet, refusal)]
    follows = conclusions_in_words(sheet, refusal)
    lines = [meaning_in_words(refusal), *places, *counts_in_words(sheet, refusal), *follows]
    return "\n".join(lines) + "\n"


def meaning_in_words(refusal: Refusal) -> str:
    meaning = meaning_of(refusal)
    return f"refused, {refusal.number} {meaning.title}: {meaning.meaning}"


def places_of(sheet: Sheet, refusal: Refusal) -> list[tuple[int, str]]:
    """The nodes that a refusal is about, and what they are to it."""
    if refusal.number in OF_TABLES:
        return OF_TABLES[refusal.number](sheet)
    meaning = meaning_of(refusal)
    places = []
    if refusal.place:
        what = refusal.what if isinstance(refusal, RunRefusal) else ""
        meets = meets_in_words(sheet, refusal.place) if refusal.number == NO_WAY else ""
        places.append((refusal.place, meaning.place.format(meets=meets, what=what)))
    first, _ = refusal.counts
    if meaning.node_in_first_count and 1 <= first <= len(sheet.nodes):
        places.append((first, meaning.node_in_first_count))
    return places


def title_in_words(sheet: Sheet, refusal: Refusal) -> str:
    """The title, of 18 with what meets."""
    title = meaning_of(refusal).title
    meets = meets_in_words(sheet, refusal.place) if refusal.number == NO_WAY else ""
    return f"{title}: {meets}" if meets else title


def counts_in_words(sheet: Sheet, refusal: Refusal) -> list[str]:
    meaning = meaning_of(refusal)
    counts = [meaning.counts.format(*refusal.counts)] if meaning.counts else []
    return counts + over_limits(sheet) if refusal.number == 1 else counts


def meets_in_words(sheet: Sheet, place: int) -> str:
    meeting = meeting_at(sheet, place)
    return meeting_in_words(sheet, meeting, place) if meeting else ""


def over_limits(sheet: Sheet) -> list[str]:
    counts = sheet.counts()
    return [
        f"{what}: {counts[what]}, at most {limit}"
        for what, limit in LIMITS.items()
        if counts[what] > limit
    ]
