"""Why no value matches both patterns: the words, and the unification against the proved call."""

import random
import time
import unittest

from rules.both.asking import Example, NoExample, Refused, example_of
from rules.both.names import SIDES
from rules.both.sides import Side
from rules.both.unify import Clash, Reason, clash_of
from rules.both.words import clash_in_words
from tests.both.asked import outcome, sides, told
from tests.planners import library, with_library
from tests.run.test_agreement import LITERALS, NAMES, blurred, text_of

PAIRS = 2_000
NONE = "no value matches both patterns"
ITSELF = "would have to hold itself"


@with_library
class Words(unittest.TestCase):
    def check(self, first: str, place: str, second: str, other_place: str, *more: str) -> None:
        """Below each pattern its place, with carets and words."""
        place = place.replace("ASKS", "the first asks for")
        other_place = other_place.replace("ASKS", "the second asks for")
        lines = [f"    {line}" for line in (first, place, second, other_place)]
        with self.subTest(first=first, second=second):
            self.assertEqual(told(first, second, *more), (1, [NONE, *lines]))

    def test_literals(self) -> None:
        self.check('{"t": 18}', "      ^^ ASKS 18", '{"t": 16}', "      ^^ ASKS 16")
        self.check("[1]", " ^ ASKS 1", '["1"]', ' ^^^ ASKS "1"')

    def test_kinds_and_lengths(self) -> None:
        self.check("[1, 2]", "^^^^^^ ASKS an array of 2", "[1]", "^^^ ASKS an array of 1")
        self.check("[{}]", " ^^ ASKS an object", "[[]]", " ^^ ASKS an array of 0")
        self.check("null", "^^^^ ASKS null", "{}", "^^ ASKS an object")

    def test_keys(self) -> None:
        one, other = '{"a": 1}', '{"b": 2, "a": x}'
        self.check(one, '^^^^^^^^ ASKS an object without key "b"', other, ' ^^^ ASKS key "b"')
        self.check(other, ' ^^^ ASKS key "b"', one, '^^^^^^^^ ASKS an object without key "b"')
        self.check(one, ' ^^^ ASKS key "a"', "{}", '^^ ASKS an object without key "a"')

    def test_names(self) -> None:
        is_18 = "    ^ ASKS `x`, which is 18 (second pattern, column 2)"
        self.check("[x, x]", is_18, "[18, 16]", "     ^^ ASKS 16")
        has_2 = "    ^ ASKS `x`, which has 2 (second pattern, column 6)"
        self.check("[x, x]", has_2, "[[1, 2], [1, 3]]", "             ^ ASKS 3")
        is_1 = "    ^ ASKS `x`, which is [1] (first pattern, column 2)"
        self.check("[[1], []]", "      ^^ ASKS an array of 0", "[x, x]", is_1)
        has_key = '    ^ ASKS `x`, which has key "a" (second pattern, column 3)'
        no_key = '           ^^ ASKS an object without key "a"'
        self.check("[x, x]", has_key, '[{"a": 1}, {}]', no_key)
        is_empty = "    ^ ASKS `x`, which is {} (second pattern, column 2)"
        self.check("[x, x]", is_empty, '[{}, {"a": 1}]', '      ^^^ ASKS key "a"')

    def test_given(self) -> None:
        given = " ^ ASKS `w`, which is 18 (given)"
        self.check("[w]", given, "[16]", " ^^ ASKS 16", "--given", "w=18")
        self.check("[16]", " ^^ ASKS 16", "[w]", given, "--given", "w=18")
        inside = " ^ ASKS `w`, which has 1 (given)"
        self.check("[w]", inside, "[[2]]", "  ^ ASKS 2", "--given", "w=[1]")
        others = "    ^ ASKS `w`, which is 18 (given to 2:v)"
        self.check("[w, w]", others, "[v, 16]", "    ^^ ASKS 16", "--given", "v=18")
        alike = "    ^ ASKS `w`, which has 18 (given to 2:w)"
        self.check("[w, w]", alike, "[[w], [16]]", "       ^^ ASKS 16", "--given", "2:w=18")

    def test_what_would_hold_itself(self) -> None:
        is_y = "    ^ ASKS `x`, which is [y] (second pattern, column 2)"
        self.check("[x, x]", is_y, "[[y], y]", f"      ^ ASKS `y`, which {ITSELF}")
        self.check("[y, y]", f"    ^ ASKS `y`, which {ITSELF}", "[x, [x]]", "    ^^^ ASKS [x]")
        first, second = "[x, x]", "[{1: y, 2: y}, {1: z, 2: [z]}]"
        part = f"    ^ ASKS `x`, a part of which {ITSELF}"
        self.check(first, part, second, "                         ^^^ ASKS [z]")

    def test_what_would_hold_itself_by_two_arrays(self) -> None:
        is_a = f"       ^ ASKS `a`, which is [a] (first pattern, column 5), and that {ITSELF}"
        self.check("[b, [a], [b]]", "         ^^^ ASKS [b]", "[a, a, a]", is_a)


def drawn_pair(chance: random.Random) -> tuple[list[str], list[str]]:
    """Two patterns that are often alike, and values for a name of theirs."""
    leaves = LITERALS + NAMES
    value = text_of(chance, leaves, 3)
    alike = [blurred(chance, value), blurred(chance, value)]
    patterns = chance.choice([alike, [alike[0], text_of(chance, leaves, 3)]])
    if chance.randrange(3) == 0:
        patterns = [repeated(chance, patterns[0]), repeated(chance, patterns[1])]
    given = [
        f"--given={place}:g={text_of(chance, LITERALS, 1)}"
        for place, pattern in enumerate(patterns, 1)
        if "g" in pattern and chance.randrange(2)
    ]
    return patterns, given


def repeated(chance: random.Random, pattern: str) -> str:
    """Names stand in it more than once, alone and in arrays."""
    items = [pattern, *(chance.choice(["x", "y", "[x]", "[y, _]", "_"]) for _ in range(3))]
    chance.shuffle(items)
    return f"[{', '.join(items)}]"


@with_library
class Agreement(unittest.TestCase):
    def test_drawn_pairs(self) -> None:
        """A clash is found exactly where the proved call says that there is no example."""
        chance = random.Random(13)
        met: dict[object, int] = {}
        for _ in range(PAIRS):
            patterns, given = drawn_pair(chance)
            with self.subTest(patterns=patterns, given=given):
                both = sides(*patterns, *given)
                found = example_of(both, library())
                clash = None if isinstance(found, Refused) else clash_of(both)
                self.assertEqual(clash is not None, isinstance(found, NoExample))
                kind = clash.reason if clash else type(found)
                met[kind] = met.get(kind, 0) + 1
                if clash:
                    self.check_places(both, clash)
        for kind in (Example, *Reason):
            self.assertGreater(met.get(kind, 0), PAIRS // 100, met)

    def check_places(self, both: list[Side], clash: Clash) -> None:
        """Each stands in its own pattern."""
        sheet = both[0].tables
        nodes = [node for node, _ in clash_in_words(sheet, clash)]
        parts = [sheet.part_of(sheet.node(node).start).what for node in nodes]
        self.assertEqual(parts, list(SIDES))


def long_chain(names: int) -> tuple[str, str]:
    """Each name of the first is an array of the next, and the last is a number and a string."""
    first = [f"a{name}" for name in range(names)]
    second = [f"[b{name}]" for name in range(1, names)]
    more = [f"b{name}" for name in range(1, names)]
    return (
        f"[{', '.join([*first, *first[1:], first[-1]])}]",
        f"[{', '.join([*second, '1', *more, '2'])}]",
    )


@with_library
class Speed(unittest.TestCase):
    def test_a_long_chain(self) -> None:
        both = sides(*long_chain(60))
        start = time.process_time()
        self.assertIsNotNone(clash_of(both))
        self.assertLess(time.process_time() - start, 1)
        self.assertIsInstance(outcome(*long_chain(60)), NoExample)


if __name__ == "__main__":
    unittest.main()
