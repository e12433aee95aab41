"""Files of parts for the tests, and the command run on them."""

import json
import tempfile
from pathlib import Path

from tests.planners import run


def ran_on(name: str, content: str | bytes, *arguments: str) -> tuple[int, list[str], str]:
    """Exit status, lines printed and errors of a rule and options, run on a file of this name."""
    data = content.encode() if isinstance(content, str) else content
    with tempfile.TemporaryDirectory() as folder:
        file = Path(folder) / name
        file.write_bytes(data)
        status, printed, error = run(*arguments, "--parts", str(file))
    return status, printed.replace(f"{folder}/", "").splitlines(), error.replace(f"{folder}/", "")


def told_of(name: str, content: str | bytes, *arguments: str) -> list[str]:
    """The lines about parts, and the tally."""
    _, printed, error = ran_on(name, content, *arguments)
    assert error == "", error
    first = next(place for place, line in enumerate(printed) if line.startswith(f"{name}:"))
    return printed[first:]


def object_of(name: str, content: str | bytes, *arguments: str) -> dict[str, object]:
    _, printed, error = ran_on(name, content, *arguments, "--json")
    assert error == "" and len(printed) == 1, error
    return json.loads(printed[0])
