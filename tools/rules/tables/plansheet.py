"""Plans by a program that reads a sheet and prints its listing, as plansheet does."""

import subprocess
from pathlib import Path

from rules.no_answer import NoAnswer
from rules.tables.listing import ListingError, Plan, Refusal, read_listing
from rules.tables.sheet import Sheet

SECONDS = 60


class Plansheet:
    """A planner of sheets, which are of Rego v0 and have no runs."""

    runs = False

    def __init__(self, path: Path) -> None:
        self.path = path

    def plan(self, sheet: Sheet, version: int, entries: int) -> Plan | Refusal:
        try:
            return read_listing(self.listing(sheet.to_bytes()), len(sheet.nodes))
        except ListingError as error:
            raise NoAnswer(f"the listing of {self.path} can't be read: {error}") from None

    def listing(self, sheet: bytes) -> bytes:
        try:
            if not self.path.exists():
                raise NoAnswer(
                    f"there is no {self.path}: build it with `rt run` in crates/plansheet, or name"
                    " another with --plansheet or the variable PLANSHEET (--sheet does without)"
                )
            planned = subprocess.run(
                [str(self.path.resolve())], input=sheet, stdout=subprocess.PIPE, timeout=SECONDS
            )
        except (OSError, subprocess.TimeoutExpired) as error:
            raise NoAnswer(f"{self.path} did not run: {error}") from None
        return planned.stdout
