"""plan_rule --body: a rule body in, each line's plan out, or what is refused."""

import argparse
import json

from rules.answer import Planner
from rules.body.as_json import body_object
from rules.body.binders import binder_of
from rules.body.lines import read_body
from rules.body.planning import plan_body
from rules.body.words import body_in_words
from rules.no_answer import NoAnswer
from rules.options import question_of
from rules.question import Question
from rules.tables.library import Library
from rules.words.colours import say


def body_said(content: bytes, options: argparse.Namespace, planner: Planner) -> bool:
    """Says the answer, or all of it as JSON; whether the body is accepted."""
    if not isinstance(planner, Library):
        raise NoAnswer(f"{planner.path} plans sheets and no bodies: --body goes without it")
    question = body_question(options)
    outcome = plan_body(read_body(content, question), planner, question.entries)
    binder = binder_of(outcome, planner, question.entries)
    if options.json:
        print(json.dumps(body_object(options.body, outcome, binder)))
    else:
        say(body_in_words(outcome, binder))
    return outcome.refused is None


def body_question(options: argparse.Namespace) -> Question:
    """The scope at the start and the plan buffer; bodies are of v0, in the present reading."""
    question = question_of(options, b"")
    alone = Question(
        b"",
        marks=question.marks,
        named=question.named,
        scheduler=question.scheduler,
        given=question.given,
        entries=question.entries,
    )
    if question != alone:
        raise NoAnswer(
            "--body FILE takes --bound and the other marks, --given, --scheduler, --entries and"
            " --json alone"
        )
    return question
