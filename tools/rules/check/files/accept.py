"""plan_rule --check --accept: what is found is written in place of what was expected."""

from codecs import BOM_UTF8
from pathlib import Path
from typing import NamedTuple

from rules.check.checking import Checked
from rules.check.expectations import agrees, read_expected
from rules.check.files.checked import CheckedFile
from rules.check.lines import read_line
from rules.check.report import Telling, line_shown
from rules.no_answer import NoAnswer
from rules.text.source import column, decoded, shown
from rules.text.tokens import RuleTextError


class Change(NamedTuple):
    """A line that differs, and what it expects from now on."""

    result: Checked
    now: bytes

    def text(self) -> bytes:
        """The line: its rule, comment and options stay."""
        line = self.result.line
        start, end = line.expected.start, line.expected.start + len(line.expected.text)
        return line.text[:start] + self.now + line.text[end:]

    def telling(self) -> Telling:
        line = self.result.line
        message = f"expected {self.result.expected_words()}, now {shown(decoded(self.now))}"
        text = f"    {line_shown(line.rule.text)}"
        return Telling(line.number, column(line.text, line.expected.start), message, text)


def changes_of(checked: CheckedFile) -> list[Change]:
    differing = (result for result in checked.results if isinstance(result, Checked))
    return [change_of(result) for result in differing if not result.agrees]


def change_of(result: Checked) -> Change:
    """What was found, or less of it where it is cut, or can't stand in a line."""
    changes = (Change(result, text.encode()) for text in ways_to_say(result.found_words()))
    return next(change for change in changes if is_met(change))


def ways_to_say(found: str) -> list[str]:
    first = found.split()[0]
    # Of parts and items, `295 of 300 match`.
    return [found, found.split(" at ")[0], first, f"{first} match"]


def is_met(change: Change) -> bool:
    """Whether the answer is what the line then expects."""
    line, answer = change.result.line, change.result.answer
    try:
        read = read_line(line.number, change.text(), line.shared)
        met = agrees(read_expected(read.expected.text), answer, change.result.notes)
        return met and read.expected.text == change.now
    except RuleTextError:
        return False


def changed(content: bytes, changes: list[Change]) -> bytes:
    """The content of a file with the changes; line ends stay."""
    mark = BOM_UTF8 if content.startswith(BOM_UTF8) else b""
    lines = content.removeprefix(mark).splitlines(keepends=True)
    for change in changes:
        place = change.result.line.number - 1
        bare = lines[place].rstrip(b"\r\n")
        lines[place] = change.text() + lines[place][len(bare) :]
    return mark + b"".join(lines)


def write_changes(name: str, content: bytes) -> None:
    try:
        Path(name).write_bytes(content)
    except OSError as error:
        raise NoAnswer(f"{name} can't be written: {error.strerror}") from None
