"""The answer to a question: a plan or a refusal, and the verdict of a run if one is asked for."""

from collections.abc import Sequence
from dataclasses import dataclass, replace

from rules.no_answer import NoAnswer
from rules.parts.tally import PartsTally
from rules.question import VERSIONS, Question, sheet_for
from rules.run.meetings import Task
from rules.run.steps import Step, as_it_stands
from rules.run.task import check_asked, why_not
from rules.run.verdict import NoMatch, NotRun, Verdict
from rules.tables.library import Library
from rules.tables.listing import Plan, Refusal
from rules.tables.plansheet import Plansheet
from rules.tables.sheet import Sheet
from rules.text.rule_text import Operation
from rules.words.refusals import BY_STRUCTURE, UNREADABLE

Planner = Library | Plansheet


@dataclass(frozen=True)
class Answer:
    """The tables, what the planner answers, and of a run what is run, its verdict, its steps."""

    question: Question
    sheet: Sheet
    outcome: Plan | Refusal
    task: Task | None = None
    verdict: Verdict | PartsTally | None = None
    steps: Sequence[Step] = ()

    def is_by_item(self) -> bool:
        """A run on the items of a collection, of which there may be none."""
        some_in = self.sheet.operation is Operation.SOME_IN
        return some_in and (len(self.steps) > 0 or isinstance(self.verdict, NoMatch))

    def runs_on_parts(self) -> bool:
        """The rule is planned, and waits for the parts of a file."""
        planned = isinstance(self.outcome, Plan) and self.verdict is None
        return planned and self.question.parts is not None


def ask(question: Question, planner: Planner) -> Answer:
    check_planner(question, planner)
    sheet = sheet_for(question)
    check_asked(question)
    outcome = planner.plan(sheet, VERSIONS[question.rego], question.entries)
    if isinstance(outcome, Refusal) or not question.runs():
        return Answer(question, sheet, outcome)
    words = why_not(question, sheet)
    if words:
        return Answer(question, sheet, outcome, verdict=NotRun(words))
    if question.parts is not None:
        return Answer(question, sheet, outcome)
    ran = as_it_stands(sheet, outcome, planner, question.entries)
    return Answer(question, ran.sheet, outcome, ran.task, ran.verdict, ran.steps)


def check_planner(question: Question, planner: Planner) -> None:
    if not planner.runs and question.needs_library():
        options = ", ".join(question.needs_library())
        raise NoAnswer(f"{planner.path} plans sheets, which have no place for {options}")


def refused_by_careful_alone(answer: Answer, planner: Planner) -> bool:
    """Whether the rule is planned without --careful, for which the planner is asked again."""
    refusal = answer.outcome
    if not answer.sheet.scope.careful or isinstance(refusal, Plan):
        return False
    if refusal.number == UNREADABLE:
        raise NoAnswer(f"{planner.path} doesn't know --careful: build it anew")
    if refusal.number not in BY_STRUCTURE:
        return False
    question = replace(answer.question, careful=False, on=None, run=False)
    return isinstance(ask(question, planner).outcome, Plan)
