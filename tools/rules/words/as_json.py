"""An answer as an object for JSON; tools/README.md, "Machine-readable", says its fields."""

from rules.answer import Answer
from rules.body.lines import BodyTextError
from rules.parts.tally import PartsTally
from rules.run.choices import Choice, chosen_text
from rules.run.meetings import Task
from rules.run.misses import Miss
from rules.run.values import fields_of, key_text, literal_of
from rules.run.verdict import Match, NoMatch, NotRun, Sometimes, Verdict
from rules.tables.listing import Entry, EntryKind, Plan, Refusal
from rules.tables.sheet import GIVEN, VALUE, Sheet
from rules.text.rule_text import Kind, Operation
from rules.text.source import column, decoded
from rules.text.tokens import RuleTextError
from rules.words.conclusions import is_never
from rules.words.notes import Note
from rules.words.plans import form_of
from rules.words.refusals import meaning_of

Object = dict[str, object]

OPERATIONS = {
    Operation.PATTERN: "pattern",
    Operation.COLON_EQUALS: ":=",
    Operation.EQUALS: "=",
    Operation.SOME_IN: "some-in",
    Operation.INDEX: "index",
    Operation.PARAMETER: "parameter",
}
# Document 02, request 1.
KINDS = {
    EntryKind.BIND: "bind",
    EntryKind.IGNORE: "ignore",
    EntryKind.COMPARE_EXPRESSION: "expression",
    EntryKind.COMPARE_LITERAL: "literal",
    EntryKind.ARRAY: "array",
    EntryKind.OBJECT: "object",
    EntryKind.PAIR: "pair",
}


# The parts of an error's text.
PARTS = {"rule text": "rule", "value": "value"}


class NoJson(Exception):
    """A value that JSON can't say: two keys of one object have equal text, a number has a range."""


def answer_object(answer: Answer, notes: list[Note], careful_alone: bool) -> Object:
    sheet = answer.sheet
    head = {
        "text": decoded(sheet.parts[0].text),
        "operation": OPERATIONS[sheet.operation],
        "version": answer.question.rego,
    }
    if isinstance(answer.outcome, Refusal):
        return {
            **head,
            **refusal_object(sheet, answer.outcome),
            "never": is_never(sheet, answer.outcome),
            "careful_alone": careful_alone,
        }
    told = [
        {"kind": kind.value, "words": words, **place_object(sheet, start, end)}
        for kind, words, start, end in notes
    ]
    return {
        **head,
        **plan_object(sheet, answer.outcome),
        "run": run_object(answer),
        "notes": told,
    }


def plan_object(sheet: Sheet, plan: Plan) -> Object:
    form = form_of(sheet, plan)
    return {
        "answer": "planned",
        "form": form.name,
        "side": form.side or None,
        "entries": [entry_object(sheet, entry) for entry in plan.entries],
    }


def entry_object(sheet: Sheet, entry: Entry) -> Object:
    return {
        "kind": KINDS[entry.kind],
        **node_object(sheet, entry.node),
        "depth": entry.depth,
        "key": node_or_none(sheet, entry.key),
        "position": entry.position,
    }


def refusal_object(sheet: Sheet, refusal: Refusal) -> Object:
    meaning = meaning_of(refusal)
    pattern = refusal.counts[0] if meaning.node_in_first_count else 0
    return {
        "answer": "refused",
        "number": refusal.number,
        "name": meaning.title,
        "place": node_or_none(sheet, refusal.place),
        "pattern_place": node_or_none(sheet, pattern),
        "counts": [0, 0] if pattern else list(refusal.counts),
    }


def run_object(answer: Answer) -> Object | None:
    sheet = answer.sheet
    if isinstance(answer.outcome, Refusal):
        on = {"on": node_object(sheet, sheet.value)}
        return {**on, **refusal_object(sheet, answer.outcome)}
    if answer.verdict is None:
        return None
    found = verdict_object(sheet, answer.task, answer.verdict)
    steps = [
        {"step": step.title, **verdict_object(step.sheet, step.task, step.verdict)}
        for step in answer.steps
    ]
    return {**found, "steps": steps} if steps else found


def verdict_object(sheet: Sheet, task: Task | None, verdict: Verdict | PartsTally) -> Object:
    on = {"on": node_object(sheet, task.value) if task else None}
    match verdict:
        case NotRun(words) as found:
            return {**on, "answer": found.said, "words": words}
        case PartsTally() as tally:
            return {**on, "answer": tally.found(), **tally.counts()}
        case Match(values) as found:
            names = {decoded(name): value_object(sheet, node) for name, node in values.items()}
            return {**on, "answer": found.said, "names": names}
        case NoMatch(miss) as found:
            return {**on, "answer": found.said, "miss": miss_object(sheet, miss)}
        case Sometimes() as found:
            return {**on, "answer": found.said, **sometimes_object(sheet, found)}
        case refusal:
            return {**on, **refusal_object(sheet, refusal)}


def miss_object(sheet: Sheet, miss: Miss) -> Object:
    return {"words": miss.words, **node_object(sheet, miss.node)}


def sometimes_object(sheet: Sheet, found: Sometimes) -> Object:
    return {
        "undecided": miss_object(sheet, found.undecided),
        "matching": choice_object(sheet, found.matching),
        "missing": choice_object(sheet, found.missing),
    }


def choice_object(sheet: Sheet, choice: Choice) -> Object:
    """The texts of the values with the chosen numbers."""
    texts = {part: decoded(chosen_text(sheet, part, choice)) for part in sheet.parts}
    given = {decoded(part.name): text for part, text in texts.items() if part.what == GIVEN}
    value = next((text for part, text in texts.items() if part.what == VALUE), None)
    return {"value": value, "given": given}


def value_object(sheet: Sheet, node: int) -> Object:
    """The text of a value, its place, and the value itself where JSON can say it."""
    try:
        return {**node_object(sheet, node), "value": json_value(sheet, node)}
    except NoJson:
        return node_object(sheet, node)


def json_value(sheet: Sheet, number: int) -> object:
    kind = sheet.node(number).kind
    if kind is Kind.ARRAY:
        return [json_value(sheet, item) for item in sheet.items_of(number)]
    if kind is Kind.OBJECT:
        return json_object(sheet, number)
    if number in sheet.ranges:
        raise NoJson
    literal = literal_of(sheet, number)
    match literal.kind:
        case Kind.STRING:
            return key_text(literal)
        case Kind.BOOL:
            return literal.value == 1
        case _:
            return literal.value


def json_object(sheet: Sheet, number: int) -> Object:
    fields = fields_of(sheet, number)
    found = {key_text(key): json_value(sheet, value) for key, value in fields.items()}
    if len(found) < len(fields):
        raise NoJson
    return found


def node_or_none(sheet: Sheet, number: int) -> Object | None:
    return node_object(sheet, number) if number else None


def node_object(sheet: Sheet, number: int) -> Object:
    node = sheet.node(number)
    return place_object(sheet, node.start, node.end)


def place_object(sheet: Sheet, start: int, end: int) -> Object:
    """A place in its part: bytes from 0, the column in characters from 1."""
    part = sheet.part_of(start)
    start, end = start - part.start, end - part.start
    return {
        "part": f"{part.what} {decoded(part.name)}".rstrip(),
        "start": start,
        "end": end,
        "column": column(part.text, start),
        "text": decoded(part.text[start:end]),
    }


def bad_text_object(error: RuleTextError, file: str | None) -> Object:
    """Text that can't be read; of a rule body with its file and line."""
    head = {"answer": "none", "error": f"bad {error.what}: {error}"}
    at = column(error.text, error.start)
    if isinstance(error, BodyTextError):
        head = {"file": file, "line": error.number, **head}
        at = error.column
    return {
        **head,
        "part": PARTS.get(error.what, error.what.replace("value of `", "given ").rstrip("`")),
        "start": error.start,
        "end": error.end,
        "column": at,
        "text": decoded(error.text),
    }
