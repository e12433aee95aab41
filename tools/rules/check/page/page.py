"""A file of rules and its answers as a page for a browser: one file, no script, no network."""

from collections.abc import Sequence
from html import escape
from pathlib import Path

from rules.check.checking import Checked, Result
from rules.check.lines import Unreadable
from rules.check.page.cards import rule_card, unreadable_card
from rules.check.page.marks import LEGEND, OF_RANGES
from rules.check.report import tally_of
from rules.text.source import shown

STYLE = Path(__file__).with_name("page.css")
PAGE = """\
<!DOCTYPE html>
<html lang="en">
<head>
<meta charset="utf-8">
<meta name="viewport" content="width=device-width, initial-scale=1">
<title>{name}: {tally}</title>
<style>
{style}</style>
</head>
<body>
<header>
<h1>{name}</h1>
<p class="tally">{tally}</p>
<ul class="legend">
{legend}</ul>
</header>
<main>
{sections}</main>
</body>
</html>
"""
LEGEND_ITEM = '<li><span class="{kind}">{kind}</span> {says}</li>\n'
SECTION = "<section>\n<h2>{heading}</h2>\n{cards}</section>\n"


def page_of(name: str, results: Sequence[Result]) -> str:
    checked = [result for result in results if isinstance(result, Checked)]
    cards: dict[bool, list[str]] = {False: [], True: []}
    for result in checked:
        cards[result.agrees].append(rule_card(result))
    unreadable = [unreadable_card(line) for line in results if isinstance(line, Unreadable)]
    sections = [
        section("What differs", cards[False]),
        section("What can\u2019t be read", unreadable),
        section("As expected", cards[True]),
    ]
    ranges = any(result.answer.sheet.ranges for result in checked)
    legend = LEGEND | (OF_RANGES if ranges else {})
    return PAGE.format(
        name=escape(shown(name)),
        tally=tally_of(results).in_words(),
        style=STYLE.read_text(),
        legend="".join(LEGEND_ITEM.format(kind=kind, says=says) for kind, says in legend.items()),
        sections="".join(sections),
    )


def section(heading: str, cards: Sequence[str]) -> str:
    return SECTION.format(heading=heading, cards="".join(cards)) if cards else ""
