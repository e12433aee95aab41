"""A file of rules that has been checked: its results, and what is to be told of them."""

import argparse
import os
import sys
from dataclasses import dataclass

from rules.answer import Planner
from rules.check.checking import Result, check
from rules.check.lines import read_lines
from rules.check.progress import with_progress
from rules.check.report import Tally, Telling, tally_of, tellings
from rules.check.weak.words import Untested, untested


@dataclass(frozen=True)
class CheckedFile:
    """The results of a file's lines, and the compares that none of them would miss."""

    name: str
    results: list[Result]
    untested: list[Untested]

    def tally(self) -> Tally:
        return tally_of(self.results, len(self.untested))

    def told(self, notes: bool) -> list[Telling]:
        """What is to be told of the lines, in their order."""
        told = [telling for result in self.results for telling in tellings(result, notes)]
        return sorted(told + [place.telling() for place in self.untested])


def check_file(
    name: str, content: bytes, options: argparse.Namespace, planner: Planner
) -> CheckedFile:
    lines = list(read_lines(content))
    checks = check(lines, planner, options.strict, os.path.dirname(name))
    results = list(with_progress(checks, len(lines), sys.stderr))
    return CheckedFile(name, results, untested(results, planner) if options.weak else [])
