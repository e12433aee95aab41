"""Where the value comes from that a plan compares with."""

from collections.abc import Mapping

from rules.tables.listing import Entry, EntryKind, Plan
from rules.tables.places import column_of, node_text
from rules.tables.sheet import ALLOW_SHADOWING, RESPECT_PARENT, Sheet
from rules.text.rule_text import LITERALS, Kind, Operation

WHOLE = "taken whole"
HAS_VALUE = "which has a value"
# The operations that are planned under the scope's own scoping.
SCOPED = (Operation.PATTERN, Operation.PARAMETER)


def origins_of(sheet: Sheet, plan: Plan, before: Mapping[bytes, str]) -> list[str]:
    """For each entry what it compares with, or nothing; `before` has names of earlier lines."""
    binds = binds_of(sheet, plan)
    roots = roots_of(plan)
    return [
        origin(sheet, entry, earlier(binds, root), before)
        for entry, root in zip(plan.entries, roots)
    ]


def roots_of(plan: Plan) -> list[int]:
    """For each entry how many roots stand before it, its own counted."""
    roots: list[int] = []
    for entry in plan.entries:
        last = roots[-1] if roots else 0
        roots.append(last + (entry.depth == 0))
    return roots


def binds_of(sheet: Sheet, plan: Plan) -> dict[int, dict[bytes, int]]:
    """By root the nodes of the names that it binds."""
    binds: dict[int, dict[bytes, int]] = {}
    for entry, root in zip(plan.entries, roots_of(plan)):
        if entry.kind is EntryKind.BIND:
            binds.setdefault(root, {})[sheet.name_of(entry.node)] = entry.node
    return binds


def earlier(binds: Mapping[int, Mapping[bytes, int]], last: int) -> dict[bytes, int]:
    """What is bound up to a root; what it binds itself counts before what was bound earlier."""
    found: dict[bytes, int] = {}
    for root in sorted(root for root in binds if root <= last):
        found |= binds[root]
    return found


def origin(
    sheet: Sheet, entry: Entry, bound: Mapping[bytes, int], before: Mapping[bytes, str]
) -> str:
    kind = sheet.node(entry.node).kind
    if entry.kind is not EntryKind.COMPARE_EXPRESSION or kind in LITERALS:
        return ""
    if kind is not Kind.NAME:
        return WHOLE
    name = sheet.name_of(entry.node)
    if name in bound:
        return f"bound at column {column_of(sheet, bound[name])}"
    if name in before:
        return before[name]
    if not sheet.scope.is_known(name, scoping_of(sheet)):
        return ""
    given = sheet.given.get(name)
    return f"given as {node_text(sheet, given)}" if given else HAS_VALUE


def scoping_of(sheet: Sheet) -> int:
    if sheet.operation is Operation.COLON_EQUALS:
        return ALLOW_SHADOWING
    return sheet.scope.scoping if sheet.operation in SCOPED else RESPECT_PARENT
