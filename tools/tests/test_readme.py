"""Every command of plan_rule that tools/README.md and README.md show is run.

What stands below a line `$ COMMAND` is its output, up to the next command or the end of the block.
A command that is listed without `$` is run for its exit status: 1 where its comment says that the
rule is refused, doesn't match or differs, else 0.
"""

import os
import re
import subprocess
import tempfile
import unittest
from collections.abc import Iterator
from pathlib import Path
from typing import NamedTuple

from tests.planners import LIBRARY, ROOT, with_library

INDENT = "    "
COMMAND = "$ "
LISTED = re.compile(r"(?:.*\| )?tools/\w")
STATUS_1 = re.compile(r"#.*\b(refused|no match|differs)\b")


class Shown(NamedTuple):
    """A command, and the lines shown below it; none of a command that is only listed."""

    command: str
    lines: list[str] | None


def blocks(text: str) -> Iterator[list[str]]:
    """The runs of indented lines."""
    for block in re.findall(r"(?:^    .*\n|^\n(?=    ))+", text, re.MULTILINE):
        yield [line.removeprefix(INDENT) for line in block.strip("\n").split("\n")]


def commands(text: str) -> Iterator[Shown]:
    for block in blocks(text):
        places = [place for place, line in enumerate(block) if line.startswith(COMMAND)]
        for place, end in zip(places, [*places[1:], len(block)]):
            yield Shown(block[place].removeprefix(COMMAND), block[place + 1 : end])
        listed = [line for line in block if LISTED.match(line)] if not places else []
        yield from (Shown(line, None) for line in listed)


def tools_page() -> str:
    return (ROOT / "tools" / "README.md").read_text()


def first_page() -> str:
    return (ROOT / "README.md").read_text()


def run_command(command: str, folder: str) -> subprocess.CompletedProcess[str]:
    named = {"TELUDDRU_SHARED": str(LIBRARY), "PLANSHEET": ""}
    return subprocess.run(
        ["sh", "-c", command],
        cwd=folder,
        env=os.environ | named,
        stdout=subprocess.PIPE,
        stderr=subprocess.STDOUT,
        text=True,
    )


@with_library
class Pages(unittest.TestCase):
    maxDiff = None

    def check(self, page: str, at_least: int) -> None:
        """The commands of a page in turn, in a folder of their own: one may use another's file."""
        shown = list(commands(page))
        self.assertGreaterEqual(len(shown), at_least)
        with tempfile.TemporaryDirectory() as folder:
            (Path(folder) / "tools").symlink_to(ROOT / "tools")
            for command, lines in shown:
                with self.subTest(command=command):
                    self.check_command(command, lines, folder)

    def check_command(self, command: str, lines: list[str] | None, folder: str) -> None:
        found = run_command(command, folder)
        if lines is None:
            self.assertEqual(found.returncode, 1 if STATUS_1.search(command) else 0, found.stdout)
        else:
            self.assertEqual(found.stdout.splitlines(), lines)

    def test_tools_page(self) -> None:
        self.check(tools_page(), 20)

    def test_first_page(self) -> None:
        self.check(first_page(), 4)


class Listing(unittest.TestCase):
    def test_first_page(self) -> None:
        """The listing that it shows is what plansheet has to print."""
        expected = (ROOT / "crates" / "plansheet" / "stdout").read_text().splitlines()
        self.assertIn(expected, list(blocks(first_page())))


class Reading(unittest.TestCase):
    def test_commands(self) -> None:
        first = "text\n\n    $ a\n    1\n\n      2\n    $ b\n\n"
        page = first + "text\n\n    tools/c\n    d\n    e | tools/f\n"
        shown = [Shown("a", ["1", "", "  2"]), Shown("b", [])]
        listed = [Shown("tools/c", None), Shown("e | tools/f", None)]
        self.assertEqual(list(commands(page)), shown + listed)

    def test_a_page_that_is_wrong(self) -> None:
        page = Pages("check_command")
        with tempfile.TemporaryDirectory() as folder:
            page.check_command("echo x", ["x"], folder)
            page.check_command("false # refused", None, folder)
            for command, lines in (("echo x", ["y"]), ("true # refused", None), ("false", None)):
                with self.assertRaises(AssertionError):
                    page.check_command(command, lines, folder)


if __name__ == "__main__":
    unittest.main()
