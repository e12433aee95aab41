"""plan_rule --both: two patterns in, an example that both match out, or why there is none."""

import argparse
import json

from rules.answer import Planner
from rules.both.as_json import outcome_object
from rules.both.asking import Example, example_of
from rules.both.sides import read_sides
from rules.both.words import outcome_in_words
from rules.no_answer import NoAnswer
from rules.tables.library import Library
from rules.words.colours import say


def both_said(options: argparse.Namespace, planner: Planner) -> bool:
    """Says the answer, or all of it as JSON; whether there is an example."""
    if not isinstance(planner, Library):
        raise NoAnswer(f"{planner.path} plans sheets and gives no examples: --both goes without it")
    sides = read_sides(options)
    outcome = example_of(sides, planner)
    if options.json:
        print(json.dumps(outcome_object(sides, outcome)))
    else:
        say(outcome_in_words(sides, outcome))
    return isinstance(outcome, Example)
