"""What differs as annotations of GitHub's workflows."""

from collections.abc import Sequence

from rules.check.files.checked import CheckedFile
from rules.check.report import Telling

NOTE = "note: "
IN_MESSAGE = {"%": "%25", "\r": "%0D", "\n": "%0A"}
IN_PROPERTY = IN_MESSAGE | {":": "%3A", ",": "%2C"}


def github_lines(files: Sequence[CheckedFile], notes: bool) -> str:
    return "".join(
        annotation(checked.name, told) for checked in files for told in checked.told(notes)
    )


def annotation(name: str, told: Telling) -> str:
    """A note warns, all else is an error."""
    level = "warning" if told.message.startswith(NOTE) else "error"
    place = f"file={escaped(name, IN_PROPERTY)},line={told.number},col={told.column}"
    message = "\n".join(filter(None, (told.message, told.text)))
    return f"::{level} {place}::{escaped(message, IN_MESSAGE)}\n"


def escaped(text: str, escapes: dict[str, str]) -> str:
    return text.translate(str.maketrans(escapes))
