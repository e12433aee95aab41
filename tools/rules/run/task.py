"""Which pattern of a question is run on which value."""

from rules.no_answer import NoAnswer
from rules.question import Question, rule_of
from rules.run.meetings import Task
from rules.run.values import no_value
from rules.tables.listing import Plan
from rules.tables.sheet import ALLOW_SHADOWING, RESPECT_PARENT, Sheet
from rules.text.rule_text import Operation
from rules.text.supplied import supplied_side

ASSIGNMENTS = (Operation.COLON_EQUALS, Operation.EQUALS)
# Forms of a plan, and the side of a wildcard.
BIND_RIGHT = 3
PAIRS = 4
RIGHT = 2
ONE_EXPRESSION = "--run is for =, := and some .. in; one expression is run on a value: --on VALUE"


def check_asked(question: Question) -> None:
    if question.parts is not None and (question.on is not None or question.run):
        raise NoAnswer("--parts FILE has the values: --on and --run go without it")


def why_not(question: Question, sheet: Sheet) -> str:
    """Why no run goes with the options: --on is a value for an expression or a collection."""
    if question.parts is not None:
        rule = rule_of(question)
        named = rule.second is None or supplied_side(rule) is not None
        return "" if named else "one side has to name the parts, as in `[w, w] = sides`"
    if question.on is not None and question.run:
        return "--on gives a value, --run takes the rule's own: one of them is for a rule"
    if question.on is not None and sheet.operation in ASSIGNMENTS:
        return "--on is for one expression or some .. in; an assignment is run as it stands: --run"
    if question.run and sheet.operation not in (*ASSIGNMENTS, Operation.SOME_IN):
        return ONE_EXPRESSION
    return ""


def task_of(sheet: Sheet, plan: Plan) -> Task:
    if sheet.operation in ASSIGNMENTS:
        return assignment_task(sheet, plan)
    scoping = RESPECT_PARENT if sheet.operation is Operation.INDEX else sheet.scope.scoping
    return Task(sheet.roots[0], sheet.value, scoping)


def assignment_task(sheet: Sheet, plan: Plan) -> Task:
    """The side that the plan matches, on the other; where none binds, the one that is no value."""
    left, right, _ = sheet.roots
    if sheet.operation is Operation.COLON_EQUALS:
        return Task(left, right, ALLOW_SHADOWING)
    if right_is_the_pattern(sheet, plan):
        return Task(right, left, RESPECT_PARENT)
    return Task(left, right, RESPECT_PARENT)


def right_is_the_pattern(sheet: Sheet, plan: Plan) -> bool:
    left, right, _ = sheet.roots
    if plan.form < PAIRS or plan.side:
        return plan.form == BIND_RIGHT or plan.side == RIGHT
    return no_value(sheet, left) is None and no_value(sheet, right) is not None
