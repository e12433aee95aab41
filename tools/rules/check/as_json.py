"""A check as an object for JSON; tools/README.md, "Machine-readable", says its fields."""

from rules.answer import Planner, refused_by_careful_alone
from rules.check.checking import Checked, Result
from rules.check.files.checked import CheckedFile
from rules.text.source import decoded
from rules.words.as_json import Object, answer_object


def check_object(checked: CheckedFile, planner: Planner) -> Object:
    lines = [result_object(result, planner) for result in checked.results]
    places = [place.as_object() for place in checked.untested]
    return {"file": checked.name, **checked.tally()._asdict(), "untested": places, "lines": lines}


def result_object(result: Result, planner: Planner) -> Object:
    if not isinstance(result, Checked):
        return {
            "line": result.number,
            "column": result.column,
            "error": result.message,
            "text": decoded(result.text),
            "start": result.start,
            "end": result.end,
        }
    answer = result.answer
    alone = refused_by_careful_alone(answer, planner)
    return {
        "line": result.line.number,
        "expected": decoded(result.line.expected.text),
        "found": result.found_words(),
        "agrees": result.agrees,
        "answer": answer_object(answer, result.notes, alone),
    }
