"""How far a check has got, for someone who waits at a terminal."""

import time
from collections.abc import Iterable, Iterator
from typing import TextIO, TypeVar

SECONDS = 0.1
Item = TypeVar("Item")


def with_progress(items: Iterable[Item], count: int, terminal: TextIO | None) -> Iterator[Item]:
    """The items; a line on the terminal, if it is one, says how many of the count went by."""
    if terminal is None or not terminal.isatty():
        yield from items
        return
    said = time.monotonic()
    line = ""
    for number, item in enumerate(items, 1):
        yield item
        now = time.monotonic()
        if now - said >= SECONDS:
            said = now
            line = f"{number} of {count}"
            print(f"\r{line}", end="", file=terminal, flush=True)
    if line:
        print(f"\r{' ' * len(line)}\r", end="", file=terminal, flush=True)
