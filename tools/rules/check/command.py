"""plan_rule --check: files of rules in, what differs out, and a page of it."""

import argparse
from collections.abc import Sequence
from pathlib import Path

from rules.answer import Planner
from rules.check.checking import Result
from rules.check.files.accept import changed, changes_of, write_changes
from rules.check.files.checked import CheckedFile, check_file
from rules.check.files.formats import formatted, total_of
from rules.check.files.names import STANDARD_INPUT, content_of, file_names
from rules.check.page.page import page_of
from rules.check.report import Tally
from rules.no_answer import NoAnswer
from rules.words.colours import say


def check_said(options: argparse.Namespace, planner: Planner) -> Tally:
    """Says what differs in the format that is asked for; writes the page if one is."""
    names = file_names(options.check)
    if options.html is not None and len(names) > 1:
        raise NoAnswer(f"--html FILE is a page of one file of rules, here are {len(names)}")
    files = [checked_or_accepted(name, options, planner) for name in names]
    if options.html is not None:
        write_page(Path(options.html), files[0].name, files[0].results)
    say(formatted(files, options, planner))
    return total_of(files)


def checked_or_accepted(
    name: str, options: argparse.Namespace, planner: Planner
) -> CheckedFile:
    content = content_of(name)
    checked = check_file(name, content, options, planner)
    if not options.accept:
        return checked
    if name == STANDARD_INPUT:
        raise NoAnswer("--accept writes into the files of rules, and standard input is none")
    changes = changes_of(checked)
    for change in changes:
        say(f"{name}:{change.telling().in_words()}\n")
    if not changes:
        return checked
    write_changes(name, changed(content, changes))
    return check_file(name, content_of(name), options, planner)


def write_page(page: Path, name: str, results: Sequence[Result]) -> None:
    try:
        page.write_text(page_of(name, results), encoding="utf-8")
    except OSError as error:
        raise NoAnswer(f"{page} can't be written: {error.strerror}") from None
