"""Reads a file of rules into its lines: a rule, `=>`, what is expected of it, options."""

import re
import shlex
from codecs import BOM_UTF8
from collections.abc import Iterator
from typing import NamedTuple

from rules.no_answer import NoAnswer
from rules.options import question_from
from rules.text.source import column, shown
from rules.text.tokens import COMMENT, RuleTextError

ARROW = b"=>"
OPTION = b"--"
BLANKS = b" \t"
NOT_CHECKED = "the rules below it are not checked"
# What a line is searched for is never met inside strings.
PARTS = re.compile(rb'"(?:[^"\\]|\\.)*"|`[^`]*`|=>|--|#|[^"`=#-]+|.')


class LinePart(NamedTuple):
    """A part of a line, and where it begins there."""

    text: bytes
    start: int


class Line(NamedTuple):
    """A line with a rule; the options are those of the line of options above it, then its own."""

    number: int
    text: bytes
    rule: LinePart
    expected: LinePart
    shared: tuple[str, ...]
    own: tuple[str, ...]

    def comment(self) -> bytes:
        """What the line's comment says, if it has one."""
        start = place_of(COMMENT, self.text, 0)
        return self.text[start:].removeprefix(COMMENT).strip()


class Unreadable(NamedTuple):
    """A line that is none of a file of rules, and the bytes of the text that are to blame.

    The text is the line, or a part of it; the column is the line's.
    """

    number: int
    text: bytes
    message: str
    start: int
    end: int
    column: int = 1


def read_lines(content: bytes) -> Iterator[Line | Unreadable]:
    """The rules and what can't be read; blank lines and comments are passed over.

    So are the rules below options that can't be read, up to the next line of options.
    """
    shared: tuple[str, ...] | None = ()
    for number, text in enumerate(content.removeprefix(BOM_UTF8).splitlines(), 1):
        said = text.strip(BLANKS)
        try:
            if said.startswith(OPTION):
                shared = None
                shared = shared_options(text)
            elif said and not said.startswith(COMMENT) and shared is not None:
                yield read_line(number, text, shared)
        except RuleTextError as error:
            place = column(text, error.start)
            yield Unreadable(number, text, str(error), error.start, error.end, place)


def shared_options(text: bytes) -> tuple[str, ...]:
    """The options of a line of options, tried without a rule."""
    start = text.index(OPTION)
    options = options_of(text, start)
    try:
        question_from(list(options), b"")
    except NoAnswer as error:
        message = f"{shown(str(error))}; {NOT_CHECKED}"
        raise RuleTextError(message, start, len(text)) from None
    return options


def read_line(number: int, text: bytes, shared: tuple[str, ...]) -> Line:
    arrow = place_of(ARROW, text, 0)
    if not text.startswith(ARROW, arrow):
        raise RuleTextError("this line has no `=>` and what is expected behind it", 0, arrow)
    behind = arrow + len(ARROW)
    options = place_of(OPTION, text, behind)
    rule, expected = part(text, 0, arrow), part(text, behind, options)
    return Line(number, text, rule, expected, shared, options_of(text, options))


def place_of(sought: bytes, text: bytes, start: int) -> int:
    """Where it first stands outside of strings; else where a comment begins, or the end."""
    for match in PARTS.finditer(text, start):
        if match.group() in (sought, COMMENT):
            return match.start()
    return len(text)


def part(text: bytes, start: int, end: int) -> LinePart:
    bare = text[start:end]
    return LinePart(bare.strip(BLANKS), start + len(bare) - len(bare.lstrip(BLANKS)))


def options_of(text: bytes, start: int) -> tuple[str, ...]:
    """The options from a place on, in the shell's quoting; `--` alone says that there are none."""
    said = text[start:].decode(errors="surrogateescape")
    try:
        options = shlex.split(said, comments=True)
    except ValueError as error:
        message = f"options are quoted as in a shell: {str(error).lower()}"
        raise RuleTextError(message, start, len(text)) from None
    return () if options == [OPTION.decode()] else tuple(options)
