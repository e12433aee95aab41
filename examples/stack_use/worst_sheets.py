#!/usr/bin/env python3
"""worst_sheets.py FOLDER: writes sheets that take much stack, deep and wide, for each operation."""

import sys
from collections.abc import Callable, Iterator
from dataclasses import replace
from pathlib import Path

sys.path.insert(0, str(Path(__file__).resolve().parents[2] / "tools"))

from rules.tables.sheet import Scope, Sheet, sheet_of
from rules.text.rule_text import Operation, read_rule
from rules.words.refusals import LIMITS

# The planner takes 32 levels: 30 around an array or object and its items.
AROUND = 30

# A leaf by its number in the innermost array or object; a side of a rule by its leaves.
Leaf = Callable[[int], str]
Side = Callable[[Leaf], str]
Shape = Callable[[int], Side]


def name(number: int) -> str:
    return f"x{number % 60}"


def literal(number: int) -> str:
    return str(number % 100)


def left_of_pair(number: int) -> str:
    return literal(number) if number % 2 else name(number)


def right_of_pair(number: int) -> str:
    return f"y{number % 60}" if number % 2 else literal(number)


def array(leaves: list[str]) -> str:
    return f"[{', '.join(leaves)}]"


def fields(leaves: list[str]) -> str:
    """An object; its keys are strings and numbers by turns."""
    keys = [str(number) if number % 2 else f'"{number}"' for number in range(len(leaves))]
    return "{" + ", ".join(f"{key}: {leaf}" for key, leaf in zip(keys, leaves)) + "}"


INNERMOST = {"array": array, "object": fields}
# What stands around them: opening, closing, levels.
NESTS = {"arrays": ("[", "]", 1), "objects": ('{"k": ', "}", 1), "both": ('[{"k": ', "}]", 2)}

# Every operation with every kind of value.
RULES: dict[str, tuple[Operation, Callable[[Side], str]]] = {
    "pattern": (Operation.PATTERN, lambda side: side(name)),
    "index": (Operation.INDEX, lambda side: side(name)),
    "parameter": (Operation.PARAMETER, lambda side: side(name)),
    "colon-equals": (Operation.COLON_EQUALS, lambda side: f"{side(name)} := f(v)"),
    "colon-equals-literal": (Operation.COLON_EQUALS, lambda side: f"{side(name)} := {side(literal)}"),
    "equals": (Operation.EQUALS, lambda side: f"{side(name)} = f(v)"),
    "equals-literal-right": (Operation.EQUALS, lambda side: f"{side(name)} = {side(literal)}"),
    "equals-literal-left": (Operation.EQUALS, lambda side: f"{side(literal)} = {side(name)}"),
    "equals-pairs": (Operation.EQUALS, lambda side: f"{side(left_of_pair)} = {side(right_of_pair)}"),
    "repeated-name": (Operation.COLON_EQUALS, lambda side: f"[x, x] := [{side(literal)}, {side(literal)}]"),
    "some-in": (Operation.SOME_IN, lambda side: f"some k, {side(name)} in f(v)"),
    "some-in-literal": (Operation.SOME_IN, lambda side: f"some k, {side(name)} in [{side(literal)}]"),
}
# The rules whose literal stands one level deeper.
DEEPER = {"repeated-name", "some-in-literal"}
# The rules that the careful reading reads otherwise.
READ = {"colon-equals-literal", "equals-literal-right", "equals-literal-left", "some-in-literal"}


def shapes(around: int) -> Iterator[tuple[str, Shape]]:
    for inner, container in INNERMOST.items():
        yield inner, shape("", "", 0, container)
        for nest, (opening, closing, levels) in NESTS.items():
            yield f"{inner}-in-{around}-{nest}", shape(opening, closing, around // levels, container)


def shape(opening: str, closing: str, times: int, container: Callable[[list[str]], str]) -> Shape:
    return lambda width: lambda leaf: (
        opening * times + container([leaf(number) for number in range(width)]) + closing * times
    )


def planned_as(operation: Operation, text: str, careful: bool = False) -> Sheet:
    return sheet_of(replace(read_rule(text.encode()), operation=operation), Scope(careful=careful))


def within_limits(sheet: Sheet) -> bool:
    return all(count <= LIMITS[what] for what, count in sheet.counts().items())


def sheets() -> Iterator[tuple[str, Sheet]]:
    """Each rule in each shape, with two leaves and with as many as the limits allow."""
    yield "two-names", planned_as(Operation.PATTERN, "[x, x]")
    for label, (operation, rule) in RULES.items():
        for shaped, side in shapes(AROUND - (label in DEEPER)):
            low, high = 2, LIMITS["nodes"]
            yield f"{label}-{shaped}-of-{low}", planned_as(operation, rule(side(low)))
            while high - low > 1:
                middle = (low + high) // 2
                fits = within_limits(planned_as(operation, rule(side(middle))))
                low, high = (middle, high) if fits else (low, middle)
            yield f"{label}-{shaped}-of-{low}", planned_as(operation, rule(side(low)))
            if label in READ:
                yield f"careful-{label}-{shaped}-of-{low}", planned_as(operation, rule(side(low)), careful=True)


def main(folder: Path) -> None:
    folder.mkdir(parents=True, exist_ok=True)
    for label, sheet in sheets():
        (folder / label).write_bytes(sheet.to_bytes())


if __name__ == "__main__":
    main(Path(sys.argv[1]))
