"""Results of a file of parts for JSON; tools/README.md, "Files of parts", says the fields."""

from rules.parts.files.items import BadItem
from rules.parts.places import numbers_by_path, where
from rules.parts.running import Ran, Result
from rules.parts.words import refusal_in_words
from rules.run.misses import Miss
from rules.run.verdict import Match, NoMatch, Sometimes
from rules.tables.sheet import Sheet
from rules.text.source import decoded
from rules.words.as_json import NoJson, Object, json_value


def result_object(result: Result) -> Object:
    if isinstance(result, BadItem):
        return {"line": result.line, "part": result.title or None, "error": result.message}
    return {"line": result.item.line, "part": result.item.title(), **verdict_object(result)}


def verdict_object(ran: Ran) -> Object:
    sheet = ran.sheet
    match ran.verdict:
        case Match(values) as found:
            names = {decoded(name): value_or_text(sheet, node) for name, node in values.items()}
            return {"answer": found.said, "names": names}
        case NoMatch(miss) as found:
            return {"answer": found.said, **miss_object(sheet, miss)}
        case Sometimes(undecided) as found:
            choices = {"matching": found.matching, "missing": found.missing}
            numbers = {said: numbers_by_path(sheet, choice) for said, choice in choices.items()}
            return {"answer": found.said, **miss_object(sheet, undecided), **numbers}
        case refusal:
            words = refusal_in_words(sheet, refusal)
            return {"answer": "refused", "number": refusal.number, "words": words}


def miss_object(sheet: Sheet, miss: Miss) -> Object:
    return where(sheet, miss)._asdict()


def value_or_text(sheet: Sheet, node: int) -> object:
    """The value; one with a range, which JSON can't say, as text."""
    try:
        return json_value(sheet, node)
    except NoJson:
        place = sheet.node(node)
        return decoded(sheet.text[place.start : place.end])
