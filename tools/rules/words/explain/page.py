"""A page on the number of a refusal: what it means, an example, what to write, what follows."""

from typing import NamedTuple

NO_RULE_TEXT = "No rule text leads to it: it is an answer to a sheet, or to a host's own tables."
OF_HOSTS = "It is an answer to a call of a host; plan_rule has no such call."
CHANGE_THE_RULE = "Nothing about values: it asks for another rule, or for another scope."


class Page(NamedTuple):
    """`example` is a command that is refused so, `instead` one that isn't, or advice in words."""

    means: str
    example: str = ""
    instead: str = ""
    conclude: str = CHANGE_THE_RULE
