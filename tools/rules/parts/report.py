"""Reports of a run over a file of parts, each written as the results are met."""

import json
from typing import Protocol, TextIO

from rules.parts.as_json import result_object
from rules.parts.running import Result
from rules.parts.tally import PartsTally
from rules.parts.words import Hints, result_in_words
from rules.tables.sheet import Sheet
from rules.text.source import shown
from rules.words.as_json import Object, refusal_object
from rules.words.colours import as_shown
from rules.words.refusals import refusal_in_words


class Report(Protocol):
    """Is given each result, then the tally."""

    def add(self, result: Result) -> None: ...

    def end(self, tally: PartsTally) -> None: ...


class Reports:
    """Several of them."""

    def __init__(self, *reports: Report) -> None:
        self.reports = reports

    def add(self, result: Result) -> None:
        for report in self.reports:
            report.add(result)

    def end(self, tally: PartsTally) -> None:
        for report in self.reports:
            report.end(tally)


class WordsReport:
    """The plan, a line for each item that doesn't match, the tally."""

    def __init__(
        self, file: str, plan: str, only_named: bool, sheet: Sheet, output: TextIO
    ) -> None:
        self.file = file
        self.hints = Hints(only_named)
        self.sheet = sheet
        self.output = output
        output.write(as_shown(plan, output))

    def add(self, result: Result) -> None:
        self.output.write(self.hints.hinted(result_in_words(self.file, result)))

    def end(self, tally: PartsTally) -> None:
        if tally.refusal:
            said = refusal_in_words(self.sheet, tally.refusal)
            self.output.write(f"run on the parts of {shown(self.file)}: {said}")
        else:
            self.output.write(tally.in_words() + "\n")


class JsonReport:
    """One object, on one line."""

    def __init__(self, file: str, rule: Object, sheet: Sheet, output: TextIO) -> None:
        self.sheet = sheet
        self.output = output
        self.before = ""
        output.write(f'{{"file": {json.dumps(file)}, "rule": {json.dumps(rule)}, "results": [')

    def add(self, result: Result) -> None:
        self.output.write(self.before + json.dumps(result_object(result)))
        self.before = ", "

    def end(self, tally: PartsTally) -> None:
        refusal = refusal_object(self.sheet, tally.refusal) if tally.refusal else None
        last = json.dumps({**tally.counts(), "refusal": refusal})
        self.output.write(f"], {last[1:]}\n")
