"""What a check says, in one of its formats."""

import argparse
import json
from collections.abc import Callable, Sequence

from rules.answer import Planner
from rules.check.as_json import check_object
from rules.check.files.checked import CheckedFile
from rules.check.files.github import github_lines
from rules.check.files.junit import junit_document
from rules.check.report import Tally, Telling, counted

Files = Sequence[CheckedFile]


def formatted(files: Files, options: argparse.Namespace, planner: Planner) -> str:
    said: dict[str, Callable[[], str]] = {
        "text": lambda: text_of(files, options.notes),
        "json": lambda: json.dumps(json_of(files, planner)) + "\n",
        "junit": lambda: junit_document(files),
        "github": lambda: github_lines(files, options.notes) + total_in_words(files),
    }
    return said[options.format]()


def total_of(files: Files) -> Tally:
    return Tally(*map(sum, zip(*(checked.tally() for checked in files))))


def text_of(files: Files, notes: bool) -> str:
    """What is told of each file; its tally where there are several; one for all."""
    several = len(files) > 1
    each = [report_of(checked, checked.told(notes), several) for checked in files]
    return "".join(each) + total_in_words(files)


def report_of(checked: CheckedFile, told: Sequence[Telling], with_tally: bool) -> str:
    lines = [f"{checked.name}:{telling.in_words()}\n" for telling in told]
    tally = [f"{checked.name}: {checked.tally().in_words()}\n"] if with_tally else []
    return "".join(lines + tally)


def total_in_words(files: Files) -> str:
    total = total_of(files).in_words()
    return f"{total}\n" if len(files) == 1 else f"{counted(len(files), 'file')}: {total}\n"


def json_of(files: Files, planner: Planner) -> dict[str, object]:
    objects = [check_object(checked, planner) for checked in files]
    if len(objects) == 1:
        return objects[0]
    return {"files": objects, **total_of(files)._asdict()}
