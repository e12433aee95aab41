"""Two patterns as an object for JSON; tools/README.md, "Two patterns", says its fields."""

from rules.both.asking import Example, NoExample, Outcome, Refused
from rules.both.sides import Side
from rules.both.words import clash_in_words
from rules.text.source import decoded
from rules.words.as_json import (
    NoJson,
    Object,
    answer_object,
    json_value,
    node_object,
    refusal_object,
)


def outcome_object(sides: list[Side], outcome: Outcome) -> Object:
    first, second = (decoded(side.question.rule) for side in sides)
    found = {"first": first, "second": second, "answer": "refused", "example": None}
    more: Object = {"runs": [], "clash": None, "refused": None}
    match outcome:
        case Example(runs=runs):
            runs_said = [answer_object(run, [], False) for run in runs]
            told = {"answer": "example", "example": example_object(outcome), "runs": runs_said}
        case NoExample():
            told = {"answer": "none", "clash": clash_object(sides, outcome)}
        case Refused(refusal, sheet, side):
            told = {"refused": {"side": side or None, **refusal_object(sheet, refusal)}}
    return {**found, **more, **told}


def example_object(example: Example) -> Object:
    try:
        return {"text": example.text, "value": json_value(example.sheet, example.node)}
    except NoJson:
        return {"text": example.text}


def clash_object(sides: list[Side], none: NoExample) -> list[Object] | None:
    if none.clash is None:
        return None
    sheet = sides[0].tables
    places = clash_in_words(sheet, none.clash)
    return [{"words": words, **node_object(sheet, node)} for node, words in places]
