"""300 parts take less than a second, and memory doesn't grow with the parts."""

import io
import json
import time
import tracemalloc
import unittest
from collections.abc import Callable, Iterator
from itertools import chain
from unittest import mock

from rules.parts.files import documents
from rules.parts.files.documents import items_of_document, items_of_lines
from rules.parts.files.items import BadItem, Item
from rules.parts.files.table import items_of_table
from rules.parts.over_file import parts_run
from rules.parts.progress import Progress
from rules.parts.report import WordsReport
from tests.planners import asked, library, with_library

# A rule of 20 nodes, and a part for it.
RULE = '{"sides": [{"t": w, "n": 1}, {"t": w, "n": 2}], "back": [b, b, [3, b]]}'
PART = {"name": "x", "sides": [{"t": 18, "n": 1}, {"t": 18, "n": 2}], "back": [3, 3, [3, 3]]}
# Of the processor, so that it holds on a busy machine too; it took 0.15.
SECONDS = 1.0
# What a run may take more for ten times the parts; kept items take ten times that.
BYTES = 50_000
FEW, MANY = 50, 500


def lines(count: int) -> Iterator[bytes]:
    text = json.dumps(PART).encode() + b"\n"
    return (text for _ in range(count))


def held(items: Iterator[Item | BadItem]) -> int:
    """The most memory that is held while the items are run."""
    answer = asked(RULE, "--open", "--parts", "unread.json")
    report = WordsReport("-", "", True, answer.sheet, Nowhere())
    tracemalloc.start()
    parts_run(answer, items, library(), report, Progress(None))
    _, most = tracemalloc.get_traced_memory()
    tracemalloc.stop()
    return most


class Nowhere(io.StringIO):
    def write(self, text: str) -> int:
        return len(text)


class MadeList(io.RawIOBase):
    """A list of so many parts, made as it is read."""

    def __init__(self, count: int) -> None:
        text = json.dumps(PART).encode()
        self.pieces = (b"[" * (place == 0) + b"," * (place > 0) + text for place in range(count))

    def read(self, size: int = -1) -> bytes:
        found = b""
        while len(found) < size and (piece := next(self.pieces, None)):
            found += piece
        return found


@with_library
class Speed(unittest.TestCase):
    def test_300_parts(self) -> None:
        self.assertEqual(len(asked(RULE).sheet.nodes), 20)
        answer = asked(RULE, "--open", "--parts", "unread.json")
        report = WordsReport("-", "", True, answer.sheet, io.StringIO())
        start = time.process_time()
        tally = parts_run(answer, items_of_lines(lines(300)), library(), report, Progress(None))
        self.assertLess(time.process_time() - start, SECONDS)
        self.assertEqual(tally.match, 300)


@with_library
class Memory(unittest.TestCase):
    def check(self, items_of: Callable[[int], Iterator[Item | BadItem]]) -> None:
        few, many = held(items_of(FEW)), held(items_of(MANY))
        self.assertLess(many, few + BYTES)

    def test_lines(self) -> None:
        self.check(lambda count: items_of_lines(lines(count)))

    def test_table(self) -> None:
        self.check(lambda count: items_of_table(chain([b"left,right\n"], [b"18,18\n"] * count)))

    def test_list(self) -> None:
        with mock.patch.object(documents, "PIECE", 2**12):
            self.check(lambda count: items_of_document(MadeList(count)))

    def test_items_that_are_kept(self) -> None:
        """The test can fail."""

        def kept(count: int) -> Iterator[Item | BadItem]:
            yield from list(items_of_lines(lines(count)))

        with self.assertRaises(AssertionError):
            self.check(kept)


if __name__ == "__main__":
    unittest.main()
