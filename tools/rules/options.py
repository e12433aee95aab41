"""The options of plan_rule, and the question that they ask."""

import argparse
import os
from dataclasses import replace
from functools import cache
from pathlib import Path

from rules.answer import Planner
from rules.no_answer import NoAnswer
from rules.parts.options import add_parts_options, parts_file
from rules.question import MOST_ENTRIES, OPERATIONS, SCOPINGS, VERSIONS, Question
from rules.tables.library import Library
from rules.tables.plansheet import Plansheet
from rules.tables.sheet import BOUND, BOUND_HERE, GLOBAL, LOCAL, UNBOUND
from rules.text.ranges import one_line
from rules.text.source import shown
from rules.text.usage import CommandParser, LineParser

MARKS = {
    "bound": BOUND,
    "bound_here": BOUND | BOUND_HERE,
    "unbound": UNBOUND,
    "local": LOCAL,
    "global": GLOBAL,
}
MEANINGS = {
    "bound": "have a value",
    "bound_here": "have a value from this very scope",
    "unbound": "are declared to have none yet",
    "local": "are local; unbound under --scheduler",
    "global": "are global: known unless unbound",
}
FORMATS = ("text", "json", "junit", "github")
# More than any plan needs.
LARGEST_BUFFER = 2**18
BUILT_LIBRARY = Path(__file__).resolve().parents[2] / "target" / "tools" / "libteluddru.so"

DESCRIPTION = """\
Plans a line of rule text and says the plan, or why there is none, in words; runs
it on a value; gives a value that two patterns both match.
"""

EPILOG = """\
rule text:
  LEFT = RIGHT    LEFT := RIGHT    some VALUE in XS    some KEY, VALUE in XS
  or one expression: a pattern, or what --as says.

expressions:
  name  _  12  -3  "text"  `raw text`  true  false  null  [a, b]  {a, b}  set()
  {"k": v}  {}
  Numbers are whole, from -9223372036854775808 to 18446744073709551615; strings
  have JSON's escapes; {} is the empty object.
  All others are taken whole, as compared but never taken apart:
  calls f(x), references a.b[c], operators (+ - * / % & | == != < <= > >= in), a
  minus before other than a number, comprehensions, all in parentheses, (x) too.
  Inside the brackets of these, text need only be balanced, and names there are
  not the planner's. Calls and references are written without blanks.
  # starts a comment, up to the line's end; lines of comment alone may stand
  before and after the rule. A rule that begins with - stands behind --, all
  options before it: plan_rule --bound x -- '-1=x'

values:
  literals, arrays, and objects with literal keys that differ. --on and --given
  take them as text. A number that is measured is written as a range, 17..19;
  the run then answers always, sometimes or never.

scope:
  NAMES are parted by commas; each option may stand more than once, and the
  marks of a name add up. A name without marks is unbound.

files of rules:
  RULE => EXPECTED [OPTIONS], a rule a line. EXPECTED: planned, bind left, pairs,
  pattern, binds w, compares w; refused 13, match, match w=18, no match, .. A line
  that begins with -- has options for those that follow; tools/README.md has all
  of it.

files of parts:
  a table with headings, a list or an object of parts in JSON, or JSON lines. A
  cell or string 17..19 is a range; tools/README.md has all of it.

rule bodies:
  a line of rule text a line; an expression alone is an index. Blank lines and
  comments are passed over. What a line binds is bound for those below it.

two patterns:
  --both PATTERN PATTERN gives an example that both match, null where nothing
  fixes a part, or the places that can't agree. Their names differ, also where
  they are spelled alike: 1:w is w of the first pattern, 2:w of the second, as in
  --given 1:w=18 or --bound 2:w. A name that one of them alone has needs no 1: or
  2:. --scheduler and --scoping are for both.

refusals:
  have a number; --explain NUMBER prints a page on it.

exit status:
  0 planned, matched (always), an example, or nothing differs; 1 refused, no match
  (sometimes, never), no example, something differs or (--weak) is not tested; 2 no
  answer (rule text, usage, no library, a line that can't be read, no rule in a
  file, output that can't be written)
"""


def question_from(arguments: list[str], rule: bytes) -> Question:
    """The question of a rule with options in a list."""
    return question_of(line_parser().parse_args(arguments), rule)


@cache
def line_parser() -> argparse.ArgumentParser:
    parser = LineParser(add_help=False, allow_abbrev=False)
    add_question_options(parser)
    return parser


def question_of(options: argparse.Namespace, rule: bytes) -> Question:
    marks: dict[bytes, int] = {}
    named: dict[bytes, str] = {}
    for option, mark in MARKS.items():
        for name in listed_names(options, option):
            marks[name] = marks.get(name, 0) | mark
            named.setdefault(name, "--" + option.replace("_", "-"))
    return Question(
        rule,
        options.operation,
        marks,
        named,
        options.scheduler,
        options.scoping,
        options.careful,
        options.rego,
        one_line(os.fsencode(options.on[-1])) if options.on else None,
        given_values(options.given),
        options.run,
        options.entries,
        parts=parts_file(options),
    )


def questions_of(options: argparse.Namespace, rule: bytes) -> list[Question]:
    """One for each value that the rule is run on, and one at least."""
    values = [one_line(os.fsencode(value)) for value in options.on]
    question = question_of(options, rule)
    return [replace(question, on=value) for value in values] or [question]


def listed_names(options: argparse.Namespace, option: str) -> list[bytes]:
    lists = vars(options)[option]
    return [os.fsencode(name.strip()) for names in lists for name in names.split(",")]


def given_values(arguments: list[str]) -> dict[bytes, bytes]:
    values: dict[bytes, bytes] = {}
    for argument in arguments:
        text, sign, value = argument.partition("=")
        name = os.fsencode(text.strip())
        if not sign:
            raise NoAnswer(f"--given: NAME=VALUE is asked for, found `{shown(argument)}`")
        if name in values:
            raise NoAnswer(f"--given: `{shown(text.strip())}` is given twice")
        values[name] = one_line(os.fsencode(value))
    return values


def command_parser() -> argparse.ArgumentParser:
    parser = CommandParser(
        prog="plan_rule",
        description=DESCRIPTION,
        epilog=EPILOG,
        formatter_class=argparse.RawDescriptionHelpFormatter,
        allow_abbrev=False,
    )
    parser.add_argument(
        "rule", metavar="RULE", nargs="?", help="rule text; - reads it from standard input"
    )
    add_mode_options(parser)
    add_question_options(parser)
    printed = parser.add_mutually_exclusive_group()
    printed.add_argument(
        "--json",
        dest="format",
        action="store_const",
        const="json",
        default="text",
        help="print the answer as a JSON object; --format json is the same",
    )
    printed.add_argument(
        "--format",
        choices=FORMATS,
        default="text",
        help="how the answer is printed (text); junit and github with --check",
    )
    printed.add_argument(
        "--sheet", action="store_true", help="print the sheet; no planner is needed"
    )
    add_planner_options(parser)
    add_other_options(parser)
    return parser


def add_other_options(parser: argparse.ArgumentParser) -> None:
    """What goes without a rule."""
    parser.add_argument(
        "--explain",
        metavar="NUMBER",
        nargs="?",
        const="",
        help="print a page on the number of a refusal; without a number, list them",
    )
    parser.add_argument(
        "--version", action="store_true", help="print the versions, and where the library is"
    )


def add_mode_options(parser: argparse.ArgumentParser) -> None:
    """What is asked for in place of a rule."""
    parser.add_argument(
        "--check",
        metavar="FILE",
        nargs="+",
        help="check files of rules, which say what is expected of each, and tell what differs; a"
        " folder stands for its *.rules, - is standard input",
    )
    parser.add_argument(
        "--watch", action="store_true", help="with --check: again whenever a file changes"
    )
    parser.add_argument(
        "--accept",
        action="store_true",
        help="with --check: write what is found in place of what is expected",
    )
    parser.add_argument("--html", metavar="FILE", help="with --check or --parts: write a page")
    parser.add_argument(
        "--strict", action="store_true", help="with --check: a note that isn't expected differs"
    )
    parser.add_argument(
        "--notes", action="store_true", help="with --check: tell the notes that aren't expected"
    )
    parser.add_argument(
        "--weak",
        action="store_true",
        help="with --check: tell the compares that no line of the file would miss",
    )
    parser.add_argument(
        "--body",
        metavar="FILE",
        help="plan a rule body, a line of rule text a line: each line's plan, or the first name"
        " that has no value yet; - is standard input",
    )
    parser.add_argument(
        "--both",
        nargs=2,
        metavar="PATTERN",
        help="give an example that both patterns match, and run both on it; or tell why there is"
        " none",
    )


def add_question_options(parser: argparse.ArgumentParser) -> None:
    """What a rule of a file may have too."""
    parser.add_argument(
        "--as", dest="operation", choices=OPERATIONS, help="what a pattern alone is (pattern)"
    )
    add_scope_options(parser)
    parser.add_argument(
        "--careful",
        action="store_true",
        help="check structure behind parts that can't be judged too; of :=, = and some-in only,"
        " others are planned as without it",
    )
    parser.add_argument(
        "--rego",
        choices=VERSIONS,
        default="v0",
        help="the Rego that the rule is written for (v0); v1 reserves input and data, and the words"
        " if, contains and every",
    )
    parser.add_argument(
        "--entries",
        metavar="N",
        type=buffer_size,
        default=MOST_ENTRIES,
        help=f"plan into a buffer of so many entries ({MOST_ENTRIES})",
    )
    add_run_options(parser)
    add_parts_options(parser)


def add_scope_options(parser: argparse.ArgumentParser) -> None:
    for name, meaning in MEANINGS.items():
        parser.add_argument(
            "--" + name.replace("_", "-"),
            metavar="NAMES",
            action="append",
            default=[],
            help=f"these names {meaning}",
        )
    parser.add_argument("--scheduler", action="store_true", help="the scope is a scheduler's")
    parser.add_argument(
        "--scoping",
        choices=SCOPINGS,
        default="respect",
        help="respect the parent's names or shadow them (respect); of patterns and parameters only",
    )


def add_run_options(parser: argparse.ArgumentParser) -> None:
    parser.add_argument(
        "--on",
        metavar="VALUE",
        action="append",
        default=[],
        help="run the pattern, parameter or index on this value, or some-in on its items; on each,"
        " if it stands twice",
    )
    parser.add_argument(
        "--run",
        action="store_true",
        help="run the rule as it is written: one side of = or := on the other, pair by pair where"
        " both bind, some-in on each item",
    )
    parser.add_argument(
        "--given",
        metavar="NAME=VALUE",
        action="append",
        default=[],
        help="the name has this value; it is bound unless another option names it",
    )


def add_planner_options(parser: argparse.ArgumentParser) -> None:
    planners = parser.add_mutually_exclusive_group()
    planners.add_argument(
        "--library",
        metavar="PATH",
        help="plan and run by this shared library (the variable TELUDDRU_SHARED, or"
        " target/tools/libteluddru.so, which tools/build_library makes)",
    )
    planners.add_argument(
        "--plansheet",
        metavar="PATH",
        help="plan by this program over sheets, and run nothing (the variable PLANSHEET)",
    )


def buffer_size(text: str) -> int:
    if not text.isdecimal() or not text.isascii() or len(text) > 6 or int(text) > LARGEST_BUFFER:
        raise argparse.ArgumentTypeError(f"a number from 0 to {LARGEST_BUFFER} is asked for")
    return int(text)


def planner_of(options: argparse.Namespace) -> Planner:
    """The planner that an option names, or else a variable, or the library as it is built."""
    by_variable = os.environ.get("PLANSHEET")
    if options.plansheet or (by_variable and not options.library):
        return Plansheet(Path(options.plansheet or by_variable))
    return Library(library_path(options))


def library_path(options: argparse.Namespace) -> Path:
    shared = options.library or os.environ.get("TELUDDRU_SHARED")
    return Path(shared or BUILT_LIBRARY)
