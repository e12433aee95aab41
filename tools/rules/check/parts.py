"""A line of a file of rules that is run on a file of parts, or item by item."""

from dataclasses import dataclass, replace

from rules.answer import Answer, Planner
from rules.no_answer import NoAnswer
from rules.parts.files.items import BadItem
from rules.parts.options import STANDARD_INPUT
from rules.parts.over_file import items_of, parts_run
from rules.parts.progress import Progress
from rules.parts.running import Result
from rules.parts.tally import PartsTally
from rules.parts.words import result_in_words

FIRST = 3


@dataclass(frozen=True)
class Counted:
    """So many of the parts or items match, all of them, or none whatever is measured."""

    count: bytes


def read_counted(words: list[bytes]) -> Counted | None:
    """`all match`, `none match` or `295 match`, if it is one of these."""
    match words:
        case [(b"all" | b"none") as count, b"match"]:
            return Counted(count)
        case [count, b"match"] if count.isdigit():
            return Counted(count)
        case _:
            return None


def is_counted(expected: Counted, tally: PartsTally) -> bool:
    match expected.count:
        case b"all":
            return tally.match == tally.parts > 0
        case b"none":
            return tally.no_match == tally.parts
        case count:
            return tally.match == int(count)


def tally_of_items(answer: Answer) -> PartsTally:
    """Of a rule that was run item by item."""
    tally = PartsTally()
    for step in answer.steps:
        tally.count(step.verdict)
    return tally


class FirstTold:
    """Keeps what is said of the first items that don't match."""

    def __init__(self, file: str) -> None:
        self.file = file
        self.told: list[str] = []

    def add(self, result: Result) -> None:
        said = result_in_words(self.file, result).rstrip()
        if isinstance(result, BadItem):
            raise NoAnswer(said)
        if said and len(self.told) < FIRST:
            self.told.append(said)

    def end(self, tally: PartsTally) -> None:
        more = tally.parts - tally.match - len(self.told)
        tally.told = self.told + [f"and {more} more"] * (more > 0)


def with_tally(answer: Answer, planner: Planner) -> Answer:
    """The answer with the tally of its parts; one that can't be read is none."""
    parts = answer.question.parts
    if parts is None or not answer.runs_on_parts():
        return answer
    if parts.name == STANDARD_INPUT:
        raise NoAnswer("in a file of rules --parts names a file")
    items, told = items_of(parts.name), FirstTold(parts.name)
    tally = parts_run(answer, items, planner, told, Progress(None))
    return replace(answer, verdict=tally.refusal or tally)
