"""Who would have to bind a name that is not ready."""

from rules.body.planning import BodyOutcome, BodyRefusal, binds_alone
from rules.tables.library import Library

NOT_READY = 38
GIVE = "bind it in a line above, or say that it has a value, by --bound or --given"


def binder_of(outcome: BodyOutcome, planner: Library, entries: int) -> int:
    """The number of the first line, from the refused one on, whose own plan binds it; or 0."""
    refused = outcome.refused
    if refused is None or refused.line is None or refused.refusal.number != NOT_READY:
        return 0
    name = refused.line.sheet.name_of(refused.refusal.place)
    for line in outcome.body.lines[refused.place - 1 :]:
        if name in binds_alone(line, refused.scope, planner, entries):
            return line.number
    return 0


def binder_in_words(refused: BodyRefusal, binder: int) -> str:
    if binder == 0:
        return f"nothing in this body binds it: {GIVE}"
    if refused.line is not None and binder == refused.line.number:
        return "this line itself binds it, which is too late"
    return f"line {binder} binds it, which has to stand above this one"
