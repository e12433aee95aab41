"""The verdict of a run in words."""

from rules.answer import Answer
from rules.run.choices import Choice, chosen_text
from rules.run.steps import Step
from rules.run.verdict import Match, NoMatch, NotRun, Sometimes, Verdict
from rules.tables.listing import Refusal
from rules.tables.places import marked_node, node_text
from rules.tables.sheet import GIVEN, VALUE, Part, Sheet
from rules.text.source import decoded, shown
from rules.words.refusals import refusal_in_words


def run_in_words(answer: Answer) -> str:
    """The verdict, or, of a value with which the tables are refused, that."""
    if isinstance(answer.outcome, Refusal):
        run = f"run on {node_text(answer.sheet, answer.sheet.value)}: "
        return run + refusal_in_words(answer.sheet, answer.outcome)
    return verdict_in_words(answer)


def verdict_in_words(answer: Answer) -> str:
    """Nothing where no run was asked for."""
    lines = steps_in_words(answer) if answer.steps else []
    if isinstance(answer.verdict, NotRun):
        lines.append(f"not run: {answer.verdict.words}")
    elif not answer.steps and answer.task is not None:
        lines = lines_of(answer.sheet, answer.verdict)
        lines[0] = f"run on {node_text(answer.sheet, answer.task.value)}: {lines[0]}"
    return "".join(f"{line}\n" for line in lines)


def lines_of(sheet: Sheet, verdict: Verdict) -> list[str]:
    """The verdict, then its lines of detail."""
    match verdict:
        case Match(values) as found:
            return [found.said, *values_in_words(sheet, values)]
        case NoMatch(miss) as found:
            return [found.said, marked_node(sheet, miss.node, miss.words)]
        case Sometimes(undecided) as found:
            place = marked_node(sheet, undecided.node, undecided.words)
            return [found.said, place, *choices_in_words(sheet, found)]
        case refusal:
            return [refusal_in_words(sheet, refusal).rstrip("\n")]


def steps_in_words(answer: Answer) -> list[str]:
    """What all of them come to, then each."""
    lines = (line for step in answer.steps for line in step_in_words(step))
    return [steps_head(answer), *lines]


def steps_head(answer: Answer) -> str:
    if not answer.is_by_item() or answer.task is None:
        return f"run pair by pair: {said_of(answer.verdict)}"
    match, sometimes = (
        sum(isinstance(step.verdict, kind) for step in answer.steps) for kind in (Match, Sometimes)
    )
    items = f"run on the items of {node_text(answer.sheet, answer.task.value)}"
    counted = f"{match} of {len(answer.steps)} {'matches' if match == 1 else 'match'}"
    return f"{items}: {counted}" + (f", {sometimes} sometimes" if sometimes else "")


def said_of(verdict: Verdict) -> str:
    match verdict:
        case Match() | NoMatch() | Sometimes():
            return verdict.said
        case NotRun():
            return "not to the end"
        case _:
            return "refused"


def step_in_words(step: Step) -> list[str]:
    """A match on one line."""
    sheet, verdict = step.sheet, step.verdict
    if isinstance(verdict, Match):
        names = ", ".join(value.strip() for value in values_in_words(sheet, verdict.values))
        return [f"    {step.title}: {names or verdict.said}"]
    first, *lines = "\n".join(lines_of(sheet, verdict)).split("\n")
    return [f"    {step.title}: {first}", *(f"    {line}" for line in lines)]


def step_line(step: Step) -> str:
    """A step on one line, without its place."""
    match step.verdict:
        case NoMatch(miss) | Sometimes(miss) as found:
            return f"{step.title}: {found.said}: {miss.words}"
        case _:
            return step_in_words(step)[0].strip()


def values_in_words(sheet: Sheet, values: dict[bytes, int]) -> list[str]:
    return [f"    {decoded(name)} = {node_text(sheet, node)}" for name, node in values.items()]


def choices_in_words(sheet: Sheet, found: Sometimes) -> list[str]:
    """A choice of the measured numbers that matches, and one that doesn't."""
    choices = {"match": found.matching, "no match": found.missing}
    return [f"    {said} {choice_in_words(sheet, choice)}" for said, choice in choices.items()]


def choice_in_words(sheet: Sheet, choice: Choice) -> str:
    """The texts of the values with the chosen numbers."""
    return ", ".join(
        part_in_words(part) + shown(decoded(chosen_text(sheet, part, choice)))
        for part in sheet.parts
        if part.what in (VALUE, GIVEN)
    )


def part_in_words(part: Part) -> str:
    return "on " if part.what == VALUE else f"given {decoded(part.name)} = "
