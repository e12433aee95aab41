"""The command plan_rule: what is said, and the exit status."""

import argparse
import json
import os
import sys
from collections.abc import Sequence
from contextlib import suppress

from rules.answer import Answer, Planner, ask, refused_by_careful_alone
from rules.body.command import body_said
from rules.body.lines import BodyTextError
from rules.both.command import both_said
from rules.check.command import check_said
from rules.check.files.names import STANDARD_INPUT, content_of, standard_input
from rules.check.files.watch import watched
from rules.check.report import Tally
from rules.no_answer import NoAnswer
from rules.options import (
    command_parser,
    library_path,
    planner_of,
    question_of,
    questions_of,
)
from rules.parts.command import parts_said
from rules.parts.options import check_parts_usage
from rules.parts.tally import PartsTally
from rules.question import Question, sheet_for
from rules.run.verdict import Match
from rules.tables.listing import Plan, Refusal
from rules.tables.sheet import Sheet
from rules.text.hints import hint_of
from rules.text.source import below
from rules.text.tokens import COMMENT, RuleTextError
from rules.words.as_json import answer_object, bad_text_object, run_object
from rules.words.colours import say
from rules.words.explain.version import version_in_words
from rules.words.explain.words import explained
from rules.words.notes import notes_in_words, notes_of
from rules.words.plans import plan_in_words
from rules.words.refusals import refusal_in_words
from rules.words.verdicts import run_in_words

# Exit statuses: planned, matched, an example or nothing differs; refused, no match, no example or
# something differs; none.
GOOD = 0
BAD = 1
NO_ANSWER = 2

JSON = "json"
# What may be asked for in place of a rule.
MODES = {"check": "--check FILE", "body": "--body FILE", "both": "--both PATTERN PATTERN"}
# The options that are for --check alone.
OF_CHECKS = {
    "watch": "--watch",
    "accept": "--accept",
    "strict": "--strict",
    "notes": "--notes",
    "weak": "--weak",
}
NO_PAGE = "--html FILE goes with --check FILE or --parts FILE"
NO_RULE = "there is no rule to check"
PLANNED_WITHOUT = (
    "without --careful this rule is planned: the check ends at the first part that it can't judge"
)


def main(arguments: list[str]) -> int:
    """The exit status; output that can't be written is no answer."""
    try:
        if sys.stdout is None:
            raise OSError("standard output is closed")
        status = said(arguments)
        sys.stdout.flush()
        return status
    except OSError as error:
        complain(f"the output can't be written: {error.strerror or error}")
        return NO_ANSWER


def said(arguments: list[str]) -> int:
    """Says the answer, or why there is none, and returns the exit status."""
    try:
        options = command_parser().parse_args(arguments)
        options.json = options.format == JSON
        if options.explain is not None or options.version:
            told = version_in_words(library_path(options)) if options.version else ""
            print(told or explained(options.explain), end="")
            return GOOD
        check_usage(options)
        if options.check is not None:
            return check_status(options)
        if options.body is not None:
            return body_status(options)
        if options.both is not None:
            return GOOD if both_said(options, planner_of(options)) else BAD
        questions = questions_of(options, rule_bytes(options.rule))
        if options.sheet:
            return sheet_said(questions[0])
        planner = planner_of(options)
        answers = [ask(question, planner) for question in questions]
        words = json_line(answers, planner) if options.json else in_words(answers, planner)
        if answers[0].runs_on_parts():
            say_hint(questions[0], answers[0].sheet)
            return parts_status(parts_said(options, answers[0], planner, words))
    except RuleTextError as error:
        bad_text_said(error, options)
        return NO_ANSWER
    except NoAnswer as error:
        complain(str(error))
        return NO_ANSWER
    except SystemExit as end:
        return GOOD if end.code == 0 else NO_ANSWER
    say_hint(questions[0], answers[0].sheet)
    say(words)
    return max(map(status_of, answers))


def bad_text_said(error: RuleTextError, options: argparse.Namespace) -> None:
    """Text that can't be read, on standard error, or as JSON."""
    if options.json:
        print(json.dumps(bad_text_object(error, options.body)))
        return
    in_body = isinstance(error, BodyTextError)
    at = f"{options.body}:{error.number}:{error.column}: " if in_body else ""
    complain(f"{at}bad {error.what}: {error}" + below(error.text, error.start, error.end))


def check_usage(options: argparse.Namespace) -> None:
    """One thing is asked for; a file of rules has their options in it."""
    check_parts_usage(options)
    modes = [words for mode, words in MODES.items() if vars(options)[mode] is not None]
    rule = options.rule is not None or options.sheet
    if len(modes) > 1:
        raise NoAnswer(f"{modes[0]} goes without {modes[1]}")
    if options.check is not None:
        return check_files_usage(options, rule)
    for option in of_checks(options):
        raise NoAnswer(f"{option} goes with --check FILE")
    if options.html is not None and options.parts is None:
        raise NoAnswer(NO_PAGE)
    if not modes and options.rule is None:
        raise NoAnswer(
            "a rule is asked for, or a file of rules: --check FILE, a rule body: --body FILE, two"
            " patterns: --both PATTERN PATTERN (see --help)"
        )
    if modes and rule:
        raise NoAnswer(f"{modes[0]} goes without a rule and without --sheet")


def check_files_usage(options: argparse.Namespace, rule: bool) -> None:
    """Of --check: `rule`, whether a rule or its sheet is asked for too."""
    if rule or question_of(options, b"") != Question(b""):
        raise NoAnswer("--check FILE goes without a rule and its options: these stand in the file")
    if options.watch and (options.accept or STANDARD_INPUT in options.check):
        raise NoAnswer("--watch goes without --accept, and files are watched, no standard input")
    elif options.accept and options.format != "text":
        raise NoAnswer(f"--accept says what it changed, and goes without --format {options.format}")


def of_checks(options: argparse.Namespace) -> list[str]:
    """What is asked for and is for --check alone."""
    asked = [words for option, words in OF_CHECKS.items() if vars(options)[option]]
    return asked if options.format in ("text", JSON) else [*asked, f"--format {options.format}"]


def check_status(options: argparse.Namespace) -> int:
    """Checks files of rules, once or whenever they change."""
    planner = planner_of(options)
    if not planner.runs:
        raise NoAnswer(f"{planner.path} plans sheets and runs nothing: --check goes without it")
    if options.watch:
        return watched(options.check, lambda: status_once(options, planner))
    return status_of_tally(check_said(options, planner))


def status_once(options: argparse.Namespace, planner: Planner) -> int:
    """A file that can't be read may be there again after the next change."""
    try:
        return status_of_tally(check_said(options, planner))
    except NoAnswer as error:
        complain(str(error))
        return NO_ANSWER


def status_of_tally(tally: Tally) -> int:
    if tally.rules == 0 and tally.unreadable == 0:
        complain(NO_RULE)
    if tally.unreadable or tally.rules == 0:
        return NO_ANSWER
    return BAD if tally.differ or tally.untested else GOOD


def body_status(options: argparse.Namespace) -> int:
    """Plans a rule body."""
    said = body_said(content_of(options.body), options, planner_of(options))
    return GOOD if said else BAD


def parts_status(tally: PartsTally) -> int:
    if tally.unreadable:
        return NO_ANSWER
    return GOOD if tally.all_match() else BAD


def complain(message: str) -> None:
    """Says what is no answer; where it can't be said, the exit status alone tells."""
    with suppress(OSError):
        if message:
            print(message, file=sys.stderr, flush=True)


def say_hint(question: Question, sheet: Sheet) -> None:
    if question.operation is None:
        complain(hint_of(sheet))


def rule_bytes(argument: str) -> bytes:
    """The rule's line, without lines of comment alone around it."""
    text = standard_input() if argument == STANDARD_INPUT else os.fsencode(argument)
    lines = [line for line in text.splitlines() if line.strip() and line.lstrip()[:1] != COMMENT]
    return text if len(lines) > 1 else b"".join(lines)


def sheet_said(question: Question) -> int:
    if question.needs_library():
        options = ", ".join(question.needs_library())
        raise NoAnswer(f"a sheet has no place for {options}: --sheet goes without")
    sheet = sheet_for(question)
    say_hint(question, sheet)
    sys.stdout.buffer.write(sheet.to_bytes())
    return GOOD


def in_words(answers: Sequence[Answer], planner: Planner) -> str:
    """The plan, or why there is none, then each verdict, then the notes."""
    answer = planned_of(answers)
    if isinstance(answer.outcome, Refusal):
        alone = refused_by_careful_alone(answer, planner)
        return refusal_in_words(answer.sheet, answer.outcome) + f"{PLANNED_WITHOUT}\n" * alone
    notes = notes_in_words(answer.sheet, notes_of(answer, planner))
    verdicts = "".join(map(run_in_words, answers))
    return plan_in_words(answer.sheet, answer.outcome) + verdicts + notes


def planned_of(answers: Sequence[Answer]) -> Answer:
    """The first that is planned: with a value the tables may be too large."""
    return next((answer for answer in answers if isinstance(answer.outcome, Plan)), answers[0])


def json_line(answers: Sequence[Answer], planner: Planner) -> str:
    """One line of ASCII, whatever the output's encoding is."""
    answer = planned_of(answers)
    alone = refused_by_careful_alone(answer, planner)
    told = answer_object(answer, notes_of(answer, planner), alone)
    if len(answers) > 1 and isinstance(answer.outcome, Plan):
        told["runs"] = list(map(run_object, answers))
    return json.dumps(told) + "\n"


def status_of(answer: Answer) -> int:
    bad = isinstance(answer.outcome, Refusal) or not isinstance(answer.verdict, Match | None)
    return BAD if bad else GOOD
