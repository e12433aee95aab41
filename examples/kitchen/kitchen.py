"""The kitchen of kitchen.c from Python's ctypes: kitchen.py PREFIX, which ./install has made."""

import ctypes
import json
import sys
from array import array
from copy import deepcopy
from pathlib import Path

PREFIX = Path(sys.argv[1])
GROUPS = json.loads((PREFIX / "share/teluddru/teluddru.json").read_text())
C = {name: value for group in GROUPS.values() for name, value in group.items()}
CALLS = ctypes.CDLL(str(PREFIX / "lib/libteluddru.so"))
LENT = [ctypes.c_void_p, ctypes.c_size_t]
FOUR_NUMBERS = [ctypes.c_uint32] * 4
CALLS.teluddru_run.argtypes = LENT * 7 + FOUR_NUMBERS + LENT * 3
CALLS.teluddru_first_miss.argtypes = LENT * 7 + FOUR_NUMBERS + LENT * 2

ARRAY, OBJECT = C["TELUDDRU_NODE_ARRAY"], C["TELUDDRU_NODE_OBJECT"]
NODE_WORDS = C["TELUDDRU_NODE_WORDS"]
# The rule's text: its names, of a letter each.
NAMES = b"_w"
CABINETS = 300
PLAN_ENTRIES = 16


class Tables:
    def __init__(self) -> None:
        self.nodes, self.children, self.numbers = array("I"), array("I"), array("Q")
        self.names, self.strings = array("I", [0, 1, 1, 1]), array("B")

    def put(self, kind: str, start: int, end: int, first: int, count: int) -> int:
        """A node's number, from 1."""
        self.nodes.extend([C[f"TELUDDRU_NODE_{kind}"], start, end, first, count])
        return len(self.nodes) // NODE_WORDS

    def put_string(self, text: str) -> int:
        place = len(self.strings)
        self.strings.extend(text.encode())
        return self.put("STRING", 0, 0, place, len(self.strings) - place)

    def put_int(self, value: int) -> int:
        place = len(self.numbers) // 2
        self.numbers.extend([value < 0, abs(value)])
        return self.put("NUMBER", 0, 0, place, 0)

    def put_name(self, name: int) -> int:
        return self.put("NAME", name - 1, name, name, 0)

    def put_array(self, *items: int) -> int:
        return self.put("ARRAY", 0, 0, self.put_children(items), len(items))

    def put_object(self, fields: dict[str, int]) -> int:
        items = [item for key, value in fields.items() for item in (self.put_string(key), value)]
        return self.put("OBJECT", 0, 0, self.put_children(items), len(fields))

    def put_children(self, items: "list[int] | tuple[int, ...]") -> int:
        self.children.extend(items)
        return len(self.children) - len(items)

    def put_cabinet(self, number: int, left: int, right: int) -> int:
        """Of names the rule, of numbers a cabinet."""
        sides = [self.put_object({"thickness": thickness}) for thickness in (left, right)]
        return self.put_object({"cabinet": number, "sides": self.put_array(*sides)})

    def lent(self) -> list[int]:
        text, marks = array("B", NAMES), array("B", bytes(len(NAMES)))
        self.kept = [self.nodes, self.children, self.numbers, self.names, self.strings, text, marks]
        return lent(*self.kept)

    def node(self, number: int) -> "array[int]":
        return self.nodes[NODE_WORDS * (number - 1) : NODE_WORDS * number]

    def entries(self, number: int) -> range:
        """The child entries of a node."""
        kind, _, _, first, count = self.node(number)
        return range(first, first + {ARRAY: 1, OBJECT: 2}.get(kind, 0) * count)

    def path(self, node: int) -> str:
        """The way to a node from the value that it is a part of."""
        if node not in self.children:
            return ""
        entry = self.children.index(node)
        parents = range(node + 1, len(self.nodes) // NODE_WORDS + 1)
        parent = next(number for number in parents if entry in self.entries(number))
        above, place = self.path(parent), self.entries(parent).index(entry)
        if self.node(parent)[0] == ARRAY:
            return f"{above}[{place}]"
        _, _, _, first, length = self.node(self.children[entry - place % 2])
        key = self.strings[first : first + length].tobytes().decode()
        return f"{above}.{key}" if above else key


def lent(*ranges: "array[int]") -> list[int]:
    return [word for lent_range in ranges for word in lent_range.buffer_info()]


def matches(rule_alone: Tables, rule: int, number: int) -> bool:
    """Puts a cabinet behind the rule, runs it, and says where it doesn't match."""
    t = deepcopy(rule_alone)
    leaves = map(t.put_int, (number, 18, 16 if number % 60 == 8 else 18))
    cabinet = t.put_cabinet(*leaves)
    values, answer = array("I", [0] * len(NAMES)), array("I", [0] * C["TELUDDRU_ANSWER_WORDS"])
    plan = array("I", [0] * PLAN_ENTRIES * C["TELUDDRU_ENTRY_WORDS"])
    asked = [*t.lent(), C["TELUDDRU_NO_SCHEDULER"], C["TELUDDRU_RESPECT_PARENT"], rule, cabinet]
    told = CALLS.teluddru_run(*asked, *lent(values, plan, answer))
    if told == C["TELUDDRU_NO_MATCH"]:
        CALLS.teluddru_first_miss(*asked, *lent(values, answer))
        _, start, end, _, _ = t.node(answer[2])
        print(f"cabinet {number}: {t.path(answer[1])} is not {NAMES[start:end].decode()}")
    elif told != C["TELUDDRU_MATCH"]:
        raise SystemExit(f"cabinet {number} is refused with {told}")
    return told == C["TELUDDRU_MATCH"]


def main() -> None:
    t = Tables()
    rule = t.put_cabinet(*map(t.put_name, (1, 2, 2)))
    count = sum(matches(t, rule, number) for number in range(1, CABINETS + 1))
    print(f"{count} of {CABINETS} cabinets match")


main()
