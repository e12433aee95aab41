"""What is said of two patterns, and what is found of them."""

from rules.both.asking import Outcome, example_of
from rules.both.sides import Side, read_sides
from rules.options import command_parser
from rules.tables.library import Library
from tests.planners import library, run


def sides(*arguments: str) -> list[Side]:
    return read_sides(command_parser().parse_args(["--both", *arguments]))


def outcome(*arguments: str, planner: Library | None = None) -> Outcome:
    return example_of(sides(*arguments), planner or library())


def told(*arguments: str) -> tuple[int, list[str]]:
    """Exit status, and the lines of the answer or of why there is none."""
    status, words, errors = run("--both", *arguments)
    return status, (words or errors).splitlines()
