"""A run over a file of parts as a page for a browser: what doesn't match first."""

from collections.abc import Iterator, Sequence
from html import escape
from itertools import chain
from pathlib import Path
from tempfile import SpooledTemporaryFile

from rules.answer import Answer
from rules.check.page.cards import in_html, note, plan, text_in_html, texts
from rules.check.page.marks import LEGEND, MISS, Mark, mark_of, marked_html
from rules.check.page.page import LEGEND_ITEM, PAGE, STYLE
from rules.no_answer import NoAnswer
from rules.parts.files.items import BadItem
from rules.parts.running import Ran, Result
from rules.parts.tally import PartsTally
from rules.parts.words import names_in_words, verdict_in_words
from rules.run.verdict import Match, NoMatch, Sometimes
from rules.tables.sheet import ITEM, Sheet
from rules.text.source import shown
from rules.words.notes import Note
from rules.words.refusals import refusal_in_words as refusal_lines

# Held in memory, of each section.
BYTES = 2**20
SECTIONS = "\0"
RULE = """\
<section>
<h2>The rule</h2>
<article class="rule">
<div>
{text}</div>
<div class="plan">
{plan}</div>
</article>
</section>
"""
CARD = """\
<article class="rule differs">
<h3>line {line} <strong>{title}</strong></h3>
<div>
{text}</div>
<div class="plan">
<p>{said}</p>
</div>
</article>
"""
ROW = "<tr><td>{line}</td><td>{title}</td><td>{names}</td></tr>\n"
ROWS = "<tr><th>line</th><th>part</th><th>names</th></tr>\n"


class Section:
    """A part of the page that is written while the results are met."""

    def __init__(self, heading: str, before: str = "", behind: str = "") -> None:
        self.heading = heading
        self.before, self.behind = before, behind
        self.written = SpooledTemporaryFile(BYTES, "w+", encoding="utf-8")

    def add(self, html: str) -> None:
        self.written.write(html)

    def pieces(self) -> Iterator[str]:
        if self.written.tell() == 0:
            return
        yield f"<section>\n<h2>{self.heading}</h2>\n{self.before}"
        self.written.seek(0)
        while piece := self.written.read(BYTES):
            yield piece
        yield f"{self.behind}</section>\n"


class PageReport:
    def __init__(self, page: str, file: str, answer: Answer, notes: Sequence[Note]) -> None:
        self.page = Path(page)
        self.file = file
        self.sheet = answer.sheet
        self.rule = rule_html(answer, notes)
        self.misses = Section("What doesn\u2019t match")
        self.unreadable = Section("What can\u2019t be read")
        self.matches = Section("What matches", f'<table class="parts">\n{ROWS}', "</table>\n")
        self.sections = (self.misses, self.unreadable, self.matches)

    def add(self, result: Result) -> None:
        if isinstance(result, BadItem):
            self.unreadable.add(card(result.line, result.title, result.message))
        elif isinstance(result.verdict, Match):
            self.matches.add(row(result))
        else:
            said = verdict_in_words(result.sheet, result.verdict)
            text = text_in_html(item_html(result.sheet, result))
            self.misses.add(card(result.item.line, result.item.title(), said, text))

    def end(self, tally: PartsTally) -> None:
        said = refusal_lines(self.sheet, tally.refusal) if tally.refusal else tally.in_words()
        head, tail = self.frame(said.partition("\n")[0]).split(SECTIONS)
        pieces = chain.from_iterable(section.pieces() for section in self.sections)
        try:
            with self.page.open("w", encoding="utf-8") as file:
                file.writelines(chain([head, self.rule], pieces, [tail]))
        except OSError as error:
            raise NoAnswer(f"{self.page} can't be written: {error.strerror}") from None
        finally:
            self.close()

    def close(self) -> None:
        for section in self.sections:
            section.written.close()

    def frame(self, tally: str) -> str:
        legend = (LEGEND_ITEM.format(kind=kind, says=says) for kind, says in LEGEND.items())
        return PAGE.format(
            name=escape(shown(self.file)),
            tally=in_html(tally),
            style=STYLE.read_text(),
            legend="".join(legend),
            sections=SECTIONS,
        )


def rule_html(answer: Answer, notes: Sequence[Note]) -> str:
    text = "".join([*texts(answer, notes), *map(note, notes)])
    return RULE.format(text=text, plan=plan(answer))


def card(line: int, title: str, said: str, text: str = "") -> str:
    return CARD.format(line=line, title=html(title), said=html(said), text=text)


def row(ran: Ran) -> str:
    names = html(names_in_words(ran))
    return ROW.format(line=ran.item.line, title=html(ran.item.title()), names=names)


def html(words: str) -> str:
    """Names and messages may have halves of characters in them."""
    return in_html(shown(words))


def item_html(sheet: Sheet, ran: Ran) -> str:
    """The item's text, with the place that misses or decides marked."""
    match ran.verdict:
        case NoMatch(miss) | Sometimes(miss):
            marks = [mark_of(sheet, miss.node, MISS)]
        case _:
            marks: list[Mark] = []
    part = next(part for part in sheet.parts if part.what == ITEM)
    return marked_html(part.text, marks, part.start)
