"""The planners that the tests ask, and the command as it is run in this process.

What needs a planner is skipped where none is built, but never where the library is named.
"""

import io
import os
import sys
import tempfile
import unittest
from collections.abc import Callable, Iterator
from contextlib import contextmanager
from functools import cache
from pathlib import Path
from unittest import mock

from rules.answer import Answer, Planner, ask
from rules.command import main
from rules.options import BUILT_LIBRARY, question_from
from rules.tables.library import Library

ROOT = Path(__file__).resolve().parents[2]
COMMAND = ROOT / "tools" / "plan_rule"
PLANSHEET = ROOT / "crates" / "plansheet" / "out" / "plansheet"
NAMED = os.environ.get("TELUDDRU_SHARED")
LIBRARY = Path(NAMED or BUILT_LIBRARY)


def with_planner(path: Path, how: str) -> Callable[[type], type]:
    return unittest.skipIf(not NAMED and not path.exists(), f"there is no {path} ({how} builds it)")


with_library = with_planner(LIBRARY, "tools/build_library")
with_plansheet = with_planner(PLANSHEET, "rt run in crates/plansheet")


@cache
def library() -> Library:
    return Library(LIBRARY)


def asked(rule: str, *options: str, planner: Planner | None = None) -> Answer:
    """The answer to a rule with its options."""
    return ask(question_from(list(options), rule.encode()), planner or library())


def stream(content: bytes = b"") -> io.TextIOWrapper:
    return io.TextIOWrapper(io.BytesIO(content), encoding="utf-8", write_through=True)


def written(text: io.TextIOWrapper) -> str:
    text.seek(0)
    return text.read()


def run(*arguments: str, text: bytes = b"", **variables: str) -> tuple[int, str, str]:
    """Exit status, output and errors of the command, with the library or what variables name."""
    output, errors = stream(), stream()
    named = {"TELUDDRU_SHARED": str(LIBRARY), "PLANSHEET": ""} | variables
    streams = mock.patch.multiple(sys, stdin=stream(text), stdout=output, stderr=errors)
    with streams, mock.patch.dict(os.environ, named):
        status = main(list(arguments))
    return status, written(output), written(errors)


@contextmanager
def planner_of_answers(present: str, careful: str) -> Iterator[str]:
    """A planner of sheets that has one line for scoping 1 and 2, and one for 3 and 4."""
    with tempfile.TemporaryDirectory() as folder:
        planner = Path(folder) / "planner"
        chosen = f'case $(sed -n 2p) in ?????????????????[12]*) echo "{present}";;'
        planner.write_text(f'#!/bin/sh\n{chosen} *) echo "{careful}";; esac\n')
        planner.chmod(0o755)
        yield str(planner)
