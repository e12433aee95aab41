"""plan_rule --parts: a rule and a file of parts in, what doesn't match out."""

import argparse
import sys

from rules.answer import Answer, Planner
from rules.parts.over_file import items_of, parts_run
from rules.parts.page import PageReport
from rules.parts.progress import Progress
from rules.parts.report import JsonReport, Report, Reports, WordsReport
from rules.parts.tally import PartsTally
from rules.words.as_json import answer_object
from rules.words.notes import notes_of


def parts_said(
    options: argparse.Namespace, answer: Answer, planner: Planner, plan: str
) -> PartsTally:
    """Says the plan, or all as JSON, and each part that doesn't match, as it is met."""
    items = items_of(options.parts)
    progress = Progress(None if options.json and sys.stdout.isatty() else sys.stderr)
    return parts_run(answer, items, planner, report_of(options, answer, planner, plan), progress)


def report_of(
    options: argparse.Namespace, answer: Answer, planner: Planner, plan: str
) -> Report:
    """What is printed, and the page if one is asked for."""
    notes = notes_of(answer, planner)
    if options.json:
        rule = answer_object(answer, notes, careful_alone=False)
        printed: Report = JsonReport(options.parts, rule, answer.sheet, sys.stdout)
    else:
        printed = WordsReport(options.parts, plan, options.open, answer.sheet, sys.stdout)
    if options.html is None:
        return printed
    return Reports(printed, PageReport(options.html, options.parts, answer, notes))
