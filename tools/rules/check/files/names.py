"""The files of rules that are asked for: by name, or all of a folder."""

import sys
from collections.abc import Sequence
from pathlib import Path

from rules.no_answer import NoAnswer

STANDARD_INPUT = "-"
RULES = "*.rules"


def file_names(arguments: Sequence[str]) -> list[str]:
    """Each once; a folder stands for the files of rules in it and below it, by name."""
    names: dict[str, None] = {}
    for argument in arguments:
        names |= dict.fromkeys(names_in(argument))
    return list(names)


def names_in(argument: str) -> list[str]:
    folder = Path(argument)
    if argument == STANDARD_INPUT or not folder.is_dir():
        return [argument]
    found = sorted(map(str, folder.rglob(RULES)))
    if not found:
        raise NoAnswer(f"{argument} has no file {RULES}")
    return found


def content_of(name: str) -> bytes:
    return standard_input() if name == STANDARD_INPUT else file_bytes(name)


def standard_input() -> bytes:
    try:
        return sys.stdin.buffer.read() if sys.stdin else b""
    except OSError as error:
        raise NoAnswer(f"standard input can't be read: {error.strerror}") from None


def file_bytes(name: str) -> bytes:
    try:
        return Path(name).read_bytes()
    except OSError as error:
        raise NoAnswer(f"{name} can't be read: {error.strerror}") from None
