"""Files that are watched."""

import os
import unittest
from collections.abc import Callable
from unittest import mock

from rules.check.files.watch import CLEAR, SECONDS, WATCHING
from tests.check.files.folders import Folder
from tests.planners import run, with_library


@with_library
class Watch(Folder):
    def watched(self, *steps: Callable[[], object]) -> tuple[int, str, str]:
        """What is said while the steps are taken, one in each pause, and the last is a Ctrl-C."""
        pauses = iter([*steps, interrupt])
        pause = mock.patch("time.sleep", side_effect=lambda seconds: next(pauses)())
        with pause as slept:
            said = run("--check", str(self.folder), "--watch")
        slept.assert_called_with(SECONDS)
        return said

    def change(self, text: str) -> None:
        """A change that is seen though it comes at once."""
        self.flush.write_text(text)
        time = self.flush.stat().st_mtime_ns + 10**9
        os.utime(self.flush, ns=(time, time))

    def test_again_when_a_file_changes(self) -> None:
        mend = lambda: self.change("[w, w] = [18, 16] => no match\n")
        status, printed, error = self.watched(mend, nothing, nothing)
        tallies = [line for line in printed.splitlines() if line.startswith("2 files: ")]
        differ = ["2 files: 4 rules, 1 differs, 1 note", "2 files: 3 rules, 0 differ, 1 note"]
        self.assertEqual((status, tallies), (0, differ))
        self.assertEqual(error, f"{WATCHING}\n" * 2)
        self.assertNotIn(CLEAR, printed)

    def test_status_is_the_last(self) -> None:
        self.assertEqual(self.watched()[0], 1)
        self.assertEqual(self.watched(lambda: self.change("x y\n"))[0], 2)

    def test_files_that_come_and_go(self) -> None:
        new = self.folder / "new.rules"
        status, printed, _ = self.watched(lambda: new.write_text("x => pattern\n"))
        self.assertEqual(printed.splitlines()[-1], "3 files: 5 rules, 1 differs, 1 note")
        steps = [file.unlink for file in (new, self.flush, self.doors)]
        back = lambda: self.doors.write_text("x => pattern\n")
        status, printed, error = self.watched(*steps, back)
        self.assertEqual((status, printed.splitlines()[-1]), (0, "1 rule, 0 differ"))
        self.assertIn("has no file *.rules\n", error)

    def test_usage(self) -> None:
        for arguments in (("-",), (str(self.flush), "--accept")):
            status, printed, error = run("--check", *arguments, "--watch")
            self.assertEqual((status, printed), (2, ""))
            self.assertTrue(error.startswith("--watch goes without --accept"))


def nothing() -> None:
    pass


def interrupt() -> None:
    raise KeyboardInterrupt


if __name__ == "__main__":
    unittest.main()
