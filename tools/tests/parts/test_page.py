"""The page of a run over a file of parts."""

import re
import tempfile
import unittest
from html.parser import HTMLParser
from pathlib import Path
from unittest import mock

from rules.parts import page
from tests.check.page.pages import VOID
from tests.parts.files import ran_on
from tests.planners import run, with_library

KITCHEN = """\
name,left,right
sink,18,18
<b>oven</b>,18,16
hob,1.5,2
larder,17..19,18
"""
FLUSH = '{"left": w, "right": w}'


class Read(HTMLParser):
    """The texts of a page's sections by their headings, and tags that aren't closed in turn."""

    def __init__(self, html: str) -> None:
        super().__init__()
        self.open: list[str] = []
        self.faults: list[str] = []
        self.sections: dict[str, str] = {}
        self.tags: set[str] = set()
        self.feed(html)
        self.close()

    def handle_starttag(self, tag: str, attrs: list[tuple[str, str | None]]) -> None:
        self.tags.add(tag)
        if tag not in VOID:
            self.open.append(tag)

    def handle_endtag(self, tag: str) -> None:
        if not self.open or self.open.pop() != tag:
            self.faults.append(tag)

    def handle_data(self, data: str) -> None:
        if self.open and self.open[-1] == "h2":
            self.sections[data] = ""
        elif self.sections and "section" in self.open:
            heading = list(self.sections)[-1]
            self.sections[heading] += data


def page_of(content: str, *arguments: str) -> str:
    """The page, in which the file of parts has its bare name."""
    with tempfile.TemporaryDirectory() as folder:
        file = Path(folder) / "page.html"
        ran_on("kitchen.csv", content, *arguments, "--html", str(file))
        return re.sub(r"/[^ <>]*/kitchen.csv", "kitchen.csv", file.read_text(encoding="utf-8"))


@with_library
class Page(unittest.TestCase):
    def test_sections(self) -> None:
        html = page_of(KITCHEN, FLUSH, "--open")
        read = Read(html)
        self.assertEqual((read.faults, read.open), ([], []))
        wrong = ["What doesn\u2019t match", "What can\u2019t be read"]
        self.assertEqual(list(read.sections), ["The rule", *wrong, "What matches"])
        self.assertIn("object of 2", read.sections["The rule"])
        misses = read.sections["What doesn\u2019t match"]
        self.assertIn("no match at right: `w` is 18 (at left), and 16 stands here", misses)
        self.assertIn("sometimes at right: ", misses)
        self.assertIn("<b>oven</b>", misses)
        self.assertIn("1.5 is not whole", read.sections["What can\u2019t be read"])
        self.assertIn("sinkw = 18", read.sections["What matches"])
        self.assertNotIn("b", read.tags)
        self.assertIn('<span class="miss"', html)
        self.assertIn("3 parts: 1 matches, 1 sometimes, 1 doesn't; 1 more can't be read", html)

    def test_halves_of_characters(self) -> None:
        """Names of parts that no bytes stand for."""
        parts = '{"\\ud800": 1, "b": {"\\udc00": 1, "\\udc00": 2}}'
        with tempfile.TemporaryDirectory() as folder:
            file = Path(folder) / "page.html"
            page = ("--html", str(file))
            self.assertEqual(ran_on("a.json", parts, "x", *page)[0], 2)
            self.assertIn("<td>?</td>", file.read_text(encoding="utf-8"))
            self.assertEqual(ran_on("a.json", parts, "some k, x in xs", *page)[0], 2)
            self.assertIn("half of a \\u pair", file.read_text(encoding="utf-8"))

    def test_empty_sections(self) -> None:
        read = Read(page_of("left\n18\n", "x"))
        self.assertEqual(list(read.sections), ["The rule", "What matches"])

    def test_a_refusal_that_all_parts_would_have(self) -> None:
        html = page_of(KITCHEN, "[x, f(x)]")
        self.assertIn("refused, 21 pattern not simple", html)
        self.assertEqual(list(Read(html).sections), ["The rule"])

    def test_pieces(self) -> None:
        """A section that is larger than what is held is as one that isn't."""
        whole = page_of(KITCHEN, FLUSH, "--open")
        with mock.patch.object(page, "BYTES", 10):
            self.assertEqual(page_of(KITCHEN, FLUSH, "--open"), whole)

    def test_a_page_that_cannot_be_written(self) -> None:
        status, _, error = run("x", "--parts", "-", "--html", "/nowhere/a.html", text=b"1\n")
        message = "/nowhere/a.html can't be written: No such file or directory\n"
        self.assertEqual((status, error), (2, message))


if __name__ == "__main__":
    unittest.main()
