"""plan_rule --check --watch: the files are checked again whenever one of them changes."""

import sys
import time
from collections.abc import Callable, Sequence
from pathlib import Path

from rules.check.files.names import file_names
from rules.no_answer import NoAnswer

SECONDS = 0.3
CLEAR = "\x1b[2J\x1b[H"
WATCHING = "watching; Ctrl-C ends it"

# The time of a file's last change and its size; none of a file that isn't there.
State = dict[str, tuple[int, int] | None]


def watched(arguments: Sequence[str], check: Callable[[], int]) -> int:
    """The last exit status, when it is interrupted."""
    status = 0
    before: State | None = None
    try:
        while True:
            now = state_of(arguments)
            if now != before:
                clear()
                status = check()
                sys.stdout.flush()
                print(WATCHING, file=sys.stderr, flush=True)
            before = now
            time.sleep(SECONDS)
    except KeyboardInterrupt:
        return status


def state_of(arguments: Sequence[str]) -> State:
    try:
        return {name: change_of(Path(name)) for name in file_names(arguments)}
    except NoAnswer:
        return {}


def change_of(path: Path) -> tuple[int, int] | None:
    try:
        found = path.stat()
    except OSError:
        return None
    return found.st_mtime_ns, found.st_size


def clear() -> None:
    if sys.stdout.isatty():
        print(CLEAR, end="")
