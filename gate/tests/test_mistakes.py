"""Tests of mistakes.py."""

import pathlib
import tempfile
import unittest

import mistakes

EDIT = "mistake: swapped in keys::order, same: the other way round\nfile: src/keys.rt\nold: a\nnew: b\n"
FACT = "./proofs/keys/order/Answers.antt:8:11: error: `returns-then-a`: `search`: no proof of `Post` was found\n"
CYCLE = "./proofs/keys/+both/Answers.antt:8:11: error: `order-returns`: `search`: no proof of `Post`\n"
OTHER = "./proofs/keys/order/Answers.antt:8:11: error: `asks`: the two types differ only where one has `i` and the other `k`\n"
OMEGA = "./proofs/keys/order/Answers.antt:8:11: error: `asks`: `omega`: the goal does not follow from what it read\n"
GRIND = "./proofs/keys/order/Answers.antt:8:11: error: `asks`: `grind`: the goal does not follow. The hypotheses hold\n"
LONG = "./proofs/keys/order/Answers.antt:8:11: error: `returns`: give the call less to do\n"
BROKE_OFF = LONG + "  `search` broke off: more steps\n  Ways. What the searches had come to: `search`: no proof of `Post`\n"
ANSWER = "./proofs/keys/order/Answers.antt:8:11: error: `returns`: expected type `Answered (x) y`\n"
TOLD = ANSWER + "  but this has type `Answered z y`\n"
TOLD_LATER = ANSWER + "  but this has type `c.3 z`\n  computed as far as it goes, the found one begins `Answered (z`\n"
SHAPE = "./proofs/keys/order/Invariants.antt:9:1: error: `invariant-loop-i`: `mul` is not a name\n"
OTHERS = "./proofs/keys/+both/Answers.antt:8:11: error: `order_all-returns`: `search`: no proof of `Post`\n"
REQUIRES = "./proofs/keys/order/Answers.antt:8:11: error: `same-requires-in-Some`: `search`: no proof of `Asks` was found\n"
FOLLOWS = "./proofs/keys/order/Answers.antt:9:1: error: `returns`: `close` was not admitted (it has holes), so ..\n"
RENAMED = (
    "./proofs/keys/order/Answers.antt:6:26: error: `returns-then-a-eq5`: `goal.returns-then-a-eq5`:"
    " module `Rattle.c.proofs.keys.order.Goals` has no `returns-then-a-eq5` that can be named from here\n"
)
OPEN = "open c::keys::order: returns-then-a-eq6\n"
NOT_PROVED = "fn c::keys::order: not proved\n"
CALLS = "fn c::keys::order: no proof: it calls `c::same`, which is not proved\n"
AUTOMATIC = "fn c::same: no proof: expected answers in ./proofs/same/Answers.antt; `search` did not prove `returns`\n"


class Mistakes(unittest.TestCase):
    def test_names_and_functions(self):
        self.assertEqual(mistakes.mistakes(EDIT), [("swapped", [("keys::order", ""), ("same", "")], False)])
        at_goal = EDIT.replace("order,", "order at returns-then-a,")
        self.assertEqual(mistakes.mistakes(at_goal)[0][1][0], ("keys::order", "returns-then-a"))
        said = EDIT.replace("round\n", "round (false: that they are in order)\n")
        self.assertTrue(mistakes.mistakes(said)[0][2])

    def test_refused_for_a_fact(self):
        for error in (FACT, CYCLE, OTHER, OMEGA, GRIND, TOLD, TOLD_LATER, BROKE_OFF, OPEN):
            self.assertIsNone(mistakes.fault(error + NOT_PROVED, "c", "keys::order"))
        self.assertIsNone(mistakes.fault(AUTOMATIC, "c", "same"))
        self.assertIsNone(mistakes.fault(AUTOMATIC, "c", "same", "returns"))

    def test_refused_by_itself_and_for_a_call(self):
        self.assertIsNone(mistakes.fault(FACT + FOLLOWS + CALLS, "c", "keys::order"))
        calls = AUTOMATIC.replace("\n", "; it calls `c::keys::order`, which is not proved\n")
        self.assertIsNone(mistakes.fault(calls, "c", "same"))

    def test_not_refused_by_itself(self):
        self.assertIn("it calls", mistakes.fault(FOLLOWS + CALLS, "c", "keys::order"))
        self.assertIn("no error", mistakes.fault(OTHERS + CALLS, "c", "keys::order"))
        self.assertIsNone(mistakes.fault(OTHERS + "fn c::keys::order_all: not proved\n", "c", "keys::order_all"))
        self.assertIn("proved", mistakes.fault("fn c::same: proved\n", "c", "same"))
        self.assertIn("nothing", mistakes.fault("", "c", "same"))
        self.assertIn("tell", mistakes.fault("fn c::same: could not tell\n", "c", "same"))

    def test_two_mistakes_in_one_function(self):
        def listed(one, other):
            return [("one", [("keys::order", one)], False), ("other", [("keys::order", other)], False)]

        for goals in (("", ""), ("", "asks"), ("asks", "asks")):
            self.assertEqual(mistakes.not_apart(listed(*goals)), ["keys::order"])
        self.assertEqual(mistakes.not_apart(listed("asks", "returns")), [])

    def test_refused_at_a_goal(self):
        log = OTHER + NOT_PROVED
        self.assertIsNone(mistakes.fault(log, "c", "keys::order", "asks"))
        self.assertIn("at returns", mistakes.fault(log, "c", "keys::order", "returns"))
        clause = FACT.replace("returns-then-a", "returns-clause-counted")
        for error in (CYCLE, clause, "open c::keys::order: returns\n", "open c::keys::order: order-returns\n"):
            self.assertIsNone(mistakes.fault(error + NOT_PROVED, "c", "keys::order", "returns"))

    def test_refused_at_what_a_call_requires(self):
        log = REQUIRES + NOT_PROVED
        for goal in ("", "same-requires-in-Some"):
            self.assertIsNotNone(mistakes.fault(log, "c", "keys::order", goal))
            self.assertIsNone(mistakes.fault(log, "c", "keys::order", goal, says_false=True))
        self.assertIn("which requirement", mistakes.fault(log, "c", "keys::order", "same-requires-in-Some"))
        self.assertIsNone(mistakes.fault(REQUIRES + FACT + log, "c", "keys::order"))
        unclosed = AUTOMATIC.replace("returns", "order-requires")
        self.assertIsNotNone(mistakes.fault(unclosed, "c", "same"))
        self.assertIsNone(mistakes.fault(unclosed, "c", "same", says_false=True))
        both = AUTOMATIC.replace("`returns`", "`order-requires`, `returns`")
        self.assertIsNone(mistakes.fault(both, "c", "same"))

    def test_refused_for_its_shape(self):
        for shape, says in ((SHAPE, "not a name"), (LONG, "less to do"), (TOLD.replace("type `Answered z", "type `z"), "expected")):
            log = shape + FACT + NOT_PROVED
            self.assertIn(says, mistakes.fault(log, "c", "keys::order"))

    def test_goal_that_the_edit_renames(self):
        self.assertIsNone(mistakes.fault(RENAMED + FACT + NOT_PROVED, "c", "keys::order"))
        two_lines = RENAMED.replace(" has no", "\n  has no")
        for log in (RENAMED + NOT_PROVED, RENAMED + NOT_PROVED + OPEN, two_lines + NOT_PROVED):
            self.assertIn("renames", mistakes.fault(log, "c", "keys::order"))

    def test_whole_repository(self):
        with tempfile.TemporaryDirectory() as folder:
            root = pathlib.Path(folder)
            (root / "crates/c/must-fail").mkdir(parents=True)
            self.assertEqual(mistakes.main(root, "--logs"), 1)
            edit = root / "crates/c/must-fail/first.edit"
            edit.write_text(EDIT)
            self.assertEqual(len(mistakes.faults(root, edit)[0]), 2)
            (root / "target/must-fail/c/first").mkdir(parents=True)
            log = root / "target/must-fail/c/first/.log"
            log.write_text(FACT + NOT_PROVED + AUTOMATIC)
            self.assertEqual(mistakes.faults(root, edit), ([], 1))
            self.assertEqual(mistakes.main(root, "--logs"), 0)
            self.assertEqual(mistakes.main(root, "--logs", "d"), 1)


if __name__ == "__main__":
    unittest.main()
