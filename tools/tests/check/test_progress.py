import io
import unittest
from unittest import mock

from rules.check.progress import with_progress


class Terminal(io.StringIO):
    def isatty(self) -> bool:
        return True


class Progress(unittest.TestCase):
    def said(self, seconds: float, count: int, terminal: io.StringIO) -> str:
        """What is said of a count of items, each of which takes so long."""
        with mock.patch("time.monotonic", side_effect=(seconds * step for step in range(10**6))):
            items = list(with_progress(iter(range(count)), count, terminal))
        self.assertEqual(items, list(range(count)))
        return terminal.getvalue()

    def test_terminal(self) -> None:
        lines = self.said(0.05, 6, Terminal()).split("\r")
        self.assertEqual(lines, ["", "2 of 6", "4 of 6", "6 of 6", "      ", ""])

    def test_less_than_a_tenth_of_a_second(self) -> None:
        self.assertEqual(self.said(0.001, 9, Terminal()), "")

    def test_no_terminal(self) -> None:
        self.assertEqual(self.said(1, 9, io.StringIO()), "")
        self.assertEqual(list(with_progress([1, 2], 2, None)), [1, 2])


if __name__ == "__main__":
    unittest.main()
