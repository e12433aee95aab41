"""plan_rule --explain: the pages on the numbers of refusals, and a list of them."""

from textwrap import fill

from rules.no_answer import NoAnswer
from rules.words.explain.page import Page
from rules.words.explain.runs import RUNS
from rules.words.explain.scopes import SCOPES
from rules.words.explain.shapes import SHAPES
from rules.words.explain.tables import TABLES
from rules.words.refusals import MEANINGS

PAGES = dict(sorted((TABLES | SCOPES | SHAPES | RUNS).items()))
# Numbers that no rule leads to.
OF_HOSTS = {
    8: "name outside: a scope is asked about a name whose number is not 1 to 128",
    30: "page buffer too short: the pages don't fit into what was lent for them",
    33: "no place: the name table is full, or has its 128 names",
    34: "shares refused: shares above 1,536 entries in all, or more than eight packs",
    35: "store refused: the plan doesn't go into the store, or the words are no store",
}
WIDTH = 92
COMMANDS = ("tools/", "echo ")


def explained(number: str) -> str:
    """The page on a number, or the list of all."""
    if number == "":
        return "".join(f"{title_of(each)}\n" for each in PAGES)
    if not number.isdecimal() or int(number) not in PAGES:
        listed = ", ".join(map(str, PAGES))
        raise NoAnswer(f"--explain: the numbers of refusals are {listed}")
    return page_in_words(int(number), PAGES[int(number)])


def title_of(number: int) -> str:
    if number in MEANINGS:
        return f"{number} {MEANINGS[number].title}: {MEANINGS[number].meaning}"
    return f"{number} {OF_HOSTS[number]}"


def page_in_words(number: int, page: Page) -> str:
    parts = {
        "What it means": page.means,
        "An example": page.example,
        "What to write instead": page.instead,
        "What one may conclude": page.conclude,
    }
    told = [f"{heading}:\n{indented(text)}\n" for heading, text in parts.items() if text]
    return "\n".join([f"{title_of(number)}\n", *told])


def indented(text: str) -> str:
    """Commands as they are, words in lines."""
    if text.startswith(COMMANDS):
        return f"    {text}"
    return fill(text, WIDTH, initial_indent="    ", subsequent_indent="    ")
