"""The constants of the C header as JSON, for hosts in other languages."""

import json
import re

MACRO = re.compile(r'^#define (TELUDDRU_\w+) ("[^"]*"|[0-9]+)', re.MULTILINE)
ENUM = re.compile(r"^enum (\w+) \{(.*?)^\};", re.MULTILINE | re.DOTALL)
ENUMERATOR = re.compile(r"^ +(TELUDDRU_\w+) = ([0-9]+)", re.MULTILINE)

Group = dict[str, str | int]


def groups_of(header: str) -> dict[str, Group]:
    """The macros that are a number or a text, then each enum by its name."""
    enums = {name: numbers(ENUMERATOR.findall(body)) for name, body in ENUM.findall(header)}
    return {"macros": numbers(MACRO.findall(header)), **enums}


def numbers(pairs: list[tuple[str, str]]) -> Group:
    return {name: json.loads(value) for name, value in pairs}


def as_json(header: str) -> str:
    return json.dumps(groups_of(header), indent=1) + "\n"
