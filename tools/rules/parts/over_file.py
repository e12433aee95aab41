"""A run over a file of parts: the rule is planned once, the items are read as they are run."""

from collections.abc import Iterator
from itertools import chain, islice

from rules.answer import Answer
from rules.no_answer import NoAnswer
from rules.parts.files.items import BadItem, Item
from rules.parts.files.reading import read_items
from rules.parts.progress import Progress
from rules.parts.report import Report
from rules.parts.running import Result, refusal_of_rule, results_of
from rules.parts.tally import PartsTally
from rules.run.verdict import Match
from rules.tables.library import Library


def items_of(file: str) -> Iterator[Item | BadItem]:
    """At least one; a file that can't be opened is told before anything is said."""
    items = read_items(file)
    first = list(islice(items, 1))
    if not first:
        raise NoAnswer(f"{file} has no parts")
    return chain(first, items)


def is_told(result: Result) -> bool:
    return isinstance(result, BadItem) or not isinstance(result.verdict, Match)


def parts_run(
    answer: Answer,
    items: Iterator[Item | BadItem],
    library: Library,
    report: Report,
    progress: Progress,
) -> PartsTally:
    """Runs a planned rule on the items; the report is given the results as they are met."""
    tally = PartsTally()
    for result in results_of(answer.question, answer.sheet, items, library):
        tally.refusal = refusal_of_rule(result)
        if tally.refusal:
            break
        tally.add(result)
        progress.one_more(is_told(result))
        report.add(result)
    progress.clear()
    report.end(tally)
    return tally
