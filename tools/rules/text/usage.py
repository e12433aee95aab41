"""Parsers of options that say what is wrong, with what is meant, and don't end the program."""

import argparse
import shlex
from collections.abc import Sequence
from difflib import get_close_matches
from typing import Any, NoReturn

from rules.no_answer import NoAnswer
from rules.text.source import shown

BRACKETS = {"[": "]", "{": "}"}
# How much an option has to be like the one that is meant; the most is 1.
LIKENESS = 0.75


class LineParser(argparse.ArgumentParser):
    """The options of a line of a file."""

    def error(self, message: str) -> NoReturn:
        raise NoAnswer(message)

    def parse_args(self, args: Sequence[str] | None = None, namespace: Any = None) -> Any:
        options, others = self.parse_known_args(args, namespace)
        if others:
            self.error(self.not_recognized(options, others))
        return options

    def not_recognized(self, options: argparse.Namespace, others: list[str]) -> str:
        value = ([""] + vars(options).get("on", []))[-1]
        closing = BRACKETS.get(value[:1], "")
        if closing and not value.endswith(closing) and others[-1].endswith(closing):
            whole = " ".join([value, *others])
            return f"quote the value: --on {shlex.quote(whole)}"
        option = others[0].partition("=")[0]
        meant = get_close_matches(option, self._option_string_actions, 1, LIKENESS)
        hint = f" (did you mean {meant[0]}?)" if meant else ""
        return f"unrecognized arguments: {shown(' '.join(others))}{hint}"


class CommandParser(LineParser):
    """Those of the command line."""

    def error(self, message: str) -> NoReturn:
        raise NoAnswer(f"{message}; see --help")
