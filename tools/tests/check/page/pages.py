"""Pages for the tests: made by the command, read by Python's own parser."""

import tempfile
from html.parser import HTMLParser
from pathlib import Path

from tests.planners import run

VOID = frozenset({"meta"})
RULES = """\
# Flush sides
[w, w] = [18, 18] => match w=18
[w, w] = [18, 16] => match
[w, _, w] => no match --on '[18, 3, 16]'
[w, w] := [18, 16, 18] => refused 13
{"a": x} := {"b": 1} => refused 14
w => match --on 18 --given w=18 --careful
_ = thickness => wildcard left
[x y] => planned
[x, 1] = [1, x] => bind left
some i, {"b": [w], "a": {w}} in parts => some-in with key --bound parts
"""
HOSTILE = """\
["<script>alert(1)</script>", "&amp;", 'x'] => planned
["</code><b title='", "\\"", `<`] => pattern
["\u05e9\u05dc\u05d5\u05dd", "\u05d0\u05d1 \u05d2\u05d3", "e\u0301\u0302"] => pattern
["\u202e <i>", w] => match --on '["<u>", 1]' --given w=1
""".encode() + b"""\
"\xff<" => planned
--bound '\xff<'
x => planned
x => planned --\xff
"""


class Page(HTMLParser):
    """The elements of a page, whether each is closed, and the text of each rule's card."""

    def __init__(self, html: str) -> None:
        super().__init__()
        self.open: list[tuple[str, str]] = []
        self.faults: list[str] = []
        self.cards: dict[str, str] = {}
        self.classes: list[tuple[str, str]] = []
        self.headings: list[str] = []
        self.title = ""
        self.attributes: set[str] = set()
        self.tags: set[str] = set()
        self.feed(html)
        self.close()
        self.faults += [f"{tag} is not closed" for tag, _ in self.open]

    def handle_starttag(self, tag: str, attrs: list[tuple[str, str | None]]) -> None:
        values = dict(attrs)
        self.tags.add(tag)
        self.attributes |= values.keys()
        if tag == "article":
            self.cards[values["id"] or ""] = ""
        if tag not in VOID:
            self.open.append((tag, values.get("class") or ""))

    def handle_endtag(self, tag: str) -> None:
        if not self.open or self.open.pop()[0] != tag:
            self.faults.append(f"{tag} closes another")

    def handle_data(self, data: str) -> None:
        tags = [tag for tag, _ in self.open]
        if not self.open or self.open[-1][1] == "spoken":
            return
        if "article" in tags:
            self.cards[list(self.cards)[-1]] += data
        if tags[-1] == "h2":
            self.headings.append(data)
        if tags[-1] == "title":
            self.title += data
        if self.open[-1][1] and "code" in tags:
            self.classes.append((self.open[-1][1], data))


def page_html(content: str | bytes) -> str:
    """The page of a file of rules."""
    text = content.encode() if isinstance(content, str) else content
    with tempfile.TemporaryDirectory() as folder:
        page = Path(folder) / "page.html"
        _, _, error = run("--check", "-", "--html", str(page), text=text)
        assert error == "", error
        return page.read_text(encoding="utf-8")
