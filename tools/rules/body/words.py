"""A rule body in words: each line's plan, what is refused, what the body binds."""

from collections.abc import Iterator, Sequence
from dataclasses import replace

from rules.body.binders import NOT_READY, binder_in_words
from rules.body.planning import BodyOutcome, BodyRefusal, PlannedLine
from rules.tables.places import marked_node
from rules.text.source import decoded, shown
from rules.words.plans import plan_in_words
from rules.words.refusals import (
    LAST_OF_TABLES,
    meaning_in_words,
    over_limits,
    refusal_in_words,
)


def body_in_words(outcome: BodyOutcome, binder: int) -> str:
    planned = "".join(lines_in_words(outcome.planned))
    refused = outcome.refused
    if refused is None:
        return planned + f"the body binds: {names_in_words(outcome.binds)}\n"
    return planned + refused_in_words(outcome, refused, binder)


def lines_in_words(planned: Sequence[PlannedLine]) -> Iterator[str]:
    """Each line's plan; a name that an earlier line binds is told with that line."""
    before: dict[bytes, str] = {}
    for each in planned:
        number = each.line.number
        plan = plan_in_words(each.line.sheet, each.plan, before)
        yield f"line {number}: {plan}binds: {names_in_words(each.binds)}\n"
        before |= dict.fromkeys(each.binds, f"bound in line {number}")


def names_in_words(names: list[bytes]) -> str:
    return ", ".join(shown(decoded(name)) for name in names) or "nothing"


def refused_in_words(outcome: BodyOutcome, refused: BodyRefusal, binder: int) -> str:
    refusal, line = refused.refusal, refused.line
    if line is None:
        return f"{meaning_in_words(refusal)}; here are {len(outcome.body.lines)}\n"
    if refusal.number <= LAST_OF_TABLES:
        limits = over_limits(outcome.body.tables) if refusal.number == 1 else []
        return "\n".join([f"the lines together: {meaning_in_words(refusal)}", *limits]) + "\n"
    if refusal.number == NOT_READY:
        label = binder_in_words(refused, binder)
        place = marked_node(line.sheet, refusal.place, label)
        return f"line {line.number}: {meaning_in_words(refusal)}\n{place}\n"
    # What earlier lines bind has a value by then.
    sheet = replace(line.sheet, scope=refused.scope)
    return f"line {line.number}: {refusal_in_words(sheet, refusal)}"
