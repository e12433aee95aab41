"""A folder of files of rules for the tests."""

import tempfile
import unittest
from pathlib import Path

FLUSH = """\
# Flush sides
[w, w] => match w=18 --on '[18, 18]'   # both of 18
[w, w] = [18, 16] => match             # "wrong" <on> purpose & 1
"""
DOORS = "x => pattern\n_ = y => wildcard left\n"


class Folder(unittest.TestCase):
    """Tests with files flush.rules, one line of which differs, and deep/doors.rules."""

    def setUp(self) -> None:
        folder = tempfile.TemporaryDirectory()
        self.addCleanup(folder.cleanup)
        self.folder = Path(folder.name)
        self.flush = self.folder / "flush.rules"
        self.doors = self.folder / "deep" / "doors.rules"
        self.doors.parent.mkdir()
        self.flush.write_text(FLUSH)
        self.doors.write_text(DOORS)
        (self.folder / "notes.txt").write_text("no rules\n")
