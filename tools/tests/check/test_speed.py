"""Ten thousand rules are checked in less than ten seconds; here a fifth of them."""

import re
import time
import unittest
from collections.abc import Callable

from tests.planners import run, with_library

RULES = 2000
# Of the processor, so that it holds on a busy machine too; it took 0.6 where `read_words` took USUAL.
SECONDS = 2.0
USUAL = 0.03
# Other work on the machine makes a try slower, never faster.
TRIES = 3
WORD = re.compile(r"\s*(?:\w+|.)", re.DOTALL)
# Half of them are run.
VARIED = """\
[w, w] = [{0}, {1}] => no match
[x{0}, y, [z, _]] => match x{0}={0}, z={1} --on '[{0}, "s{0}", [{1}, null]]'
{{"right": w, "left": w}} => match w={0} --on '{{"left": {0}, "right": {0}}}'
{{"a": x, "b": [y, {{"c": z}}]}} := {{"a": {0}, "b": [1, {{"c": [{1}]}}]}} => match z=[{1}]
[w, v] => match v={1} --on '[{0}, {1}]' --given w={0}
some i, {{"thickness": w, "n": {0}}} in parts => some-in with key --bound parts
[x, {0}] = [{1}, y{0}] => pairs
[x] := [{0}, {1}] => refused 13 at [{0}, {1}]
{{k{0}: v, "a": [u, u, {{1, {0}}}]}} => pattern --bound k{0}
_ = part.size[{0}] => wildcard left
"""


def rules(count: int) -> bytes:
    kinds = VARIED.splitlines()
    lines = (kinds[number % len(kinds)].format(number, number + 1) for number in range(count))
    return "\n".join(lines).encode()


def read_words() -> None:
    """A fixed piece of work of the kind that reading rules is."""
    for _ in range(240):
        words = []
        at = 0
        while match := WORD.match(VARIED, at):
            at = match.end()
            words.append((match.start(), match[0].strip()))


def processor_time(work: Callable[[], object]) -> float:
    start = time.process_time()
    work()
    return time.process_time() - start


def slowness() -> float:
    """How many times as long as usual the machine takes at this moment."""
    return max(1.0, processor_time(read_words) / USUAL)


@with_library
class Speed(unittest.TestCase):
    def test_processor_time(self) -> None:
        content = rules(RULES)

        def check() -> None:
            status, printed, _ = run("--check", "-", text=content)
            self.assertEqual((status, printed), (0, f"{RULES} rules, 0 differ\n"))

        seconds = min(processor_time(check) / slowness() for _ in range(TRIES))
        self.assertLess(seconds, SECONDS)


if __name__ == "__main__":
    unittest.main()
