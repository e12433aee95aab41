"""How far a run over a file of parts has got, for someone who waits at a terminal."""

import time
from typing import TextIO

SECONDS = 0.1


class Progress:
    """A line on the terminal, if it is one, with the count of parts so far."""

    def __init__(self, terminal: TextIO | None) -> None:
        self.terminal = terminal if terminal is not None and terminal.isatty() else None
        self.count = 0
        self.said = time.monotonic()
        self.line = ""

    def one_more(self, told: bool) -> None:
        """One that is told has the line to itself."""
        self.count += 1
        if self.terminal is None:
            return
        if told:
            self.clear()
        elif time.monotonic() - self.said >= SECONDS:
            self.said = time.monotonic()
            self.show(f"{self.count} parts")

    def clear(self) -> None:
        if self.line:
            self.show(" " * len(self.line))
            self.show("")

    def show(self, line: str) -> None:
        self.line = line
        print(f"\r{line}", end="", file=self.terminal, flush=True)
