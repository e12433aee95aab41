"""The options of a run over a file of parts."""

import argparse
import os
from typing import NamedTuple

from rules.no_answer import NoAnswer
from rules.parts.files.laying_out import SCALES

STANDARD_INPUT = "-"


class PartsFile(NamedTuple):
    """A file of parts; whether fields that the pattern doesn't name are left out; its unit."""

    name: str
    only_named: bool
    scale: int

    def beside(self, folder: str) -> "PartsFile":
        standard_input = self.name == STANDARD_INPUT
        return self if standard_input else self._replace(name=os.path.join(folder, self.name))


def add_parts_options(parser: argparse.ArgumentParser) -> None:
    parser.add_argument(
        "--parts",
        metavar="FILE",
        help="run the rule on each part of a file: .csv, .tsv (headings, then a part a row), .json"
        " (a list, or an object of named parts), .jsonl (a part a line), or - for such lines",
    )
    parser.add_argument(
        "--open",
        action="store_true",
        help="with --parts: leave out the fields that the pattern doesn't name, at every depth",
    )
    parser.add_argument(
        "--scale",
        metavar="N",
        type=int,
        choices=SCALES,
        default=1,
        help="with --parts: count the parts' numbers in a unit N times smaller, N being 10, 100 or"
        " 1000 (18.5 is 185 with 10)",
    )


def parts_file(options: argparse.Namespace) -> PartsFile | None:
    if options.parts is None:
        return None
    return PartsFile(options.parts, options.open, options.scale)


def check_parts_usage(options: argparse.Namespace) -> None:
    if options.parts is None and (options.open or options.scale != 1):
        raise NoAnswer("--open and --scale go with --parts FILE")
