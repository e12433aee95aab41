"""What is said, in colours on a terminal: bound, compared, ignored and misses as on the page."""

import os
import re
import sys
from collections.abc import Iterator
from typing import TextIO

GREEN, BLUE, DIM, RED, YELLOW = "32", "34", "2", "31", "33"
VERBS = {"bind": GREEN, "compare": BLUE, "ignore": DIM}
ROW = re.compile(r"( +\d+  (?:.*?: | *))(bind|compare|ignore)( .*)")
CARETS = re.compile(r"( {4,})(\^+.*)")
NOTE = re.compile(r"(|.*:\d+:\d+: )(note: .*)")
GOOD = re.compile(r"(run on .*: )(match|always)")
EXAMPLE = re.compile(r"()(both match .*)")
BAD = re.compile(
    r"(|run on .*: |.*:\d+:\d+: |first pattern: |second pattern: |the patterns together: )"
    r"(no match|no value matches both patterns|never|sometimes|refused, .*|expected .*)"
)
TALLY = re.compile(r"(.*\d+ rules?, )(\d+ differs?)(.*)")


def say(words: str) -> None:
    """Prints words that end with a line end, or nothing."""
    print(as_shown(words, sys.stdout), end="")


def as_shown(words: str, stream: TextIO) -> str:
    """Words as this stream shows them."""
    return coloured(words) if has_colours(stream) else words


def has_colours(stream: TextIO) -> bool:
    """A terminal has, unless NO_COLOR is set or it can't."""
    allowed = not os.environ.get("NO_COLOR") and os.environ.get("TERM") != "dumb"
    return allowed and stream.isatty()


def coloured(words: str) -> str:
    return "".join(coloured_lines(words))


def coloured_lines(words: str) -> Iterator[str]:
    noted = False
    for line in words.splitlines(keepends=True):
        bare = line.rstrip("\n")
        noted = noted or NOTE.fullmatch(bare) is not None
        yield coloured_line(bare, noted) + line[len(bare) :]
        noted = noted and not CARETS.fullmatch(bare)


def coloured_line(line: str, noted: bool) -> str:
    """A line with its last part in a colour; `noted` below a note, up to its carets."""
    row = ROW.fullmatch(line)
    if row:
        return row[1] + paint(VERBS[row[2]], row[2] + row[3])
    tally = TALLY.fullmatch(line)
    if tally:
        return tally[1] + paint(GREEN if tally[2].startswith("0 ") else RED, tally[2]) + tally[3]
    for form, colour in ((NOTE, YELLOW), (GOOD, GREEN), (EXAMPLE, GREEN), (BAD, RED)):
        found = form.fullmatch(line)
        if found:
            return found[1] + paint(colour, found[2])
    carets = CARETS.fullmatch(line)
    return carets[1] + paint(YELLOW if noted else RED, carets[2]) if carets else line


def paint(colour: str, text: str) -> str:
    return f"\x1b[{colour}m{text}\x1b[0m"
