"""What was checked as a document that build servers read: JUnit's XML."""

from collections.abc import Iterator, Sequence
from xml.sax.saxutils import escape, quoteattr

from rules.check.checking import Checked, Result
from rules.check.files.checked import CheckedFile
from rules.check.report import Telling, tellings
from rules.text.source import decoded, shown

HEAD = '<?xml version="1.0" encoding="UTF-8"?>\n'


def junit_document(files: Sequence[CheckedFile]) -> str:
    suites = "".join(map(suite, files))
    return f"{HEAD}<testsuites>\n{suites}</testsuites>\n"


def suite(checked: CheckedFile) -> str:
    """A test case for each line with a rule, and for each compare that is not tested."""
    tally = checked.tally()
    counts = {
        "name": shown(checked.name),
        "tests": tally.rules + tally.unreadable + tally.untested,
        "failures": tally.differ + tally.untested,
        "errors": tally.unreadable,
    }
    return f"<testsuite{attributes(counts)}>\n{''.join(cases(checked))}</testsuite>\n"


def cases(checked: CheckedFile) -> Iterator[str]:
    for result in checked.results:
        kind = "failure" if isinstance(result, Checked) else "error"
        yield case(checked.name, number_of(result), name_of(result), kind, tellings(result))
    for place in checked.untested:
        told = place.telling()
        yield case(checked.name, told.number, told.message, "failure", [told])


def number_of(result: Result) -> int:
    return result.line.number if isinstance(result, Checked) else result.number


def name_of(result: Result) -> str:
    """The comment of a line, or else its rule."""
    if not isinstance(result, Checked):
        return shown(decoded(result.text))
    return shown(decoded(result.line.comment() or result.line.rule.text))


def case(file: str, number: int, name: str, kind: str, told: Sequence[Telling]) -> str:
    said = {"classname": shown(file), "name": f"line {number}: {name}", "file": shown(file)}
    head = f"<testcase{attributes(said | {'line': number})}"
    faults = "".join(
        f"<{kind}{attributes({'message': shown(each.message)})}>{escape(each.text)}</{kind}>\n"
        for each in told
    )
    return f"{head}>\n{faults}</testcase>\n" if faults else f"{head}/>\n"


def attributes(values: dict[str, str | int]) -> str:
    return "".join(f" {name}={quoteattr(str(value))}" for name, value in values.items())
