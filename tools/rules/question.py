"""What plan_rule is asked: a rule with its options, and the tables of it."""

from collections.abc import Iterator, Mapping
from contextlib import contextmanager
from dataclasses import dataclass, field, replace

from rules.no_answer import NoAnswer
from rules.parts.options import PartsFile
from rules.tables.sheet import (
    ALLOW_SHADOWING,
    BOUND,
    RESPECT_PARENT,
    WILDCARD,
    Scope,
    Sheet,
    Writer,
)
from rules.text.ranges import read_value
from rules.text.rule_text import Operation, Rule, read_rule
from rules.text.source import decoded, shown
from rules.text.supplied import supplied_name
from rules.text.tokens import RuleTextError

OPERATIONS = {
    "pattern": Operation.PATTERN,
    "parameter": Operation.PARAMETER,
    "index": Operation.INDEX,
}
SCOPINGS = {"respect": RESPECT_PARENT, "shadow": ALLOW_SHADOWING}
VERSIONS = {"v0": 0, "v1": 1}
MOST_ENTRIES = 1536
WILDCARD_GIVEN = "--given: `_` is no name, each of its places has a value of its own"
TAKEN_WHOLE = "(names inside an expression that is taken whole are not the planner's)"


@dataclass(frozen=True)
class Question:
    """A rule of one line and its options; `named` has for each name the option that names it.

    The rule may lack the names that are in `perhaps`: what is said of them is then passed over.
    """

    rule: bytes
    operation: str | None = None
    marks: Mapping[bytes, int] = field(default_factory=dict)
    named: Mapping[bytes, str] = field(default_factory=dict)
    scheduler: bool = False
    scoping: str = "respect"
    careful: bool = False
    rego: str = "v0"
    on: bytes | None = None
    given: Mapping[bytes, bytes] = field(default_factory=dict)
    run: bool = False
    entries: int = MOST_ENTRIES
    perhaps: frozenset[bytes] = frozenset()
    parts: PartsFile | None = None

    def runs(self) -> bool:
        return self.run or self.on is not None or self.parts is not None

    def scope(self) -> Scope:
        """That of the options; a name that is given a value is bound unless an option names it."""
        given = {name: BOUND for name in self.given if name not in self.named}
        return Scope(
            {**self.marks, **given}, self.scheduler, SCOPINGS[self.scoping], self.careful
        )

    def needs_library(self) -> list[str]:
        """The options that a sheet, and so a planner of sheets, has no place for."""
        options = {
            "--on": self.on is not None,
            "--run": self.run,
            "--parts": self.parts is not None,
            "--given": bool(self.given),
            "--rego v1": self.rego != "v0",
            "--entries": self.entries != MOST_ENTRIES,
        }
        return [option for option, asked in options.items() if asked]


def sheet_for(question: Question) -> Sheet:
    """The tables of a question: the rule's, then those of its values."""
    with blamed("rule text", question.rule, planned=not question.runs()):
        rule = rule_of(question)
        writer = Writer(Sheet(question.rule, rule.operation, scope_of(question, rule)))
        writer.rule(rule)
    check_names(writer.sheet, question)
    given = [item for item in question.given.items() if item[0] in writer.sheet.names]
    if question.on is not None:
        with blamed("value", question.on):
            writer.value(question.on, read_value(question.on))
    for name, text in given:
        with blamed(f"value of `{decoded(name)}`", text):
            writer.given(name, text, read_value(text))
    return writer.sheet


def scope_of(question: Question, rule: Rule) -> Scope:
    """That of the options; a name that stands for parts, or for the value of --on, has one."""
    scope = question.scope()
    collection = question.on is not None and rule.operation is Operation.SOME_IN
    name = supplied_name(rule) if question.parts or collection else None
    if name is None or name in question.named:
        return scope
    return replace(scope, marks={**scope.marks, name: BOUND})


@contextmanager
def blamed(what: str, text: bytes, planned: bool = False) -> Iterator[None]:
    """An error in a part of the text names the part; `planned` if it is of a rule, and not run."""
    try:
        yield
    except RuleTextError as error:
        error.what, error.text = what, text
        error.args = (str(error) + (error.if_planned if planned else ""),)
        raise


def rule_of(question: Question) -> Rule:
    rule = read_rule(question.rule, v1=question.rego == "v1")
    if question.operation is None:
        return rule
    if rule.operation is not Operation.PATTERN:
        chosen = f"--as {question.operation}"
        raise NoAnswer(f"{chosen} is for one expression, not for =, := or some .. in")
    return replace(rule, operation=OPERATIONS[question.operation])


def check_names(sheet: Sheet, question: Question) -> None:
    """Every name of the options is one of the rule, whose names alone stand in the sheet by now."""
    if WILDCARD in question.given:
        raise NoAnswer(WILDCARD_GIVEN)
    for name, option in {**dict.fromkeys(question.given, "--given"), **question.named}.items():
        if name not in sheet.names and name not in question.perhaps:
            raise NoAnswer(f"{option}: the rule has no name `{shown(decoded(name))}` {TAKEN_WHOLE}")
