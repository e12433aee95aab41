import unittest

from rules.check.lines import NOT_CHECKED, Line, LinePart, Unreadable, read_lines


def read_rules(content: bytes) -> list[Line]:
    """The lines of a file in which all can be read."""
    lines = list(read_lines(content))
    rules = [line for line in lines if isinstance(line, Line)]
    assert lines == rules
    return rules


def read_rule(text: bytes) -> Line:
    (line,) = read_rules(text)
    return line


def unreadable(text: bytes) -> Unreadable:
    (line,) = read_lines(text)
    assert isinstance(line, Unreadable)
    return line


class Lines(unittest.TestCase):
    def test_rule_expected_and_options(self) -> None:
        text = b" [w, w] =>\tno  match  --on '[18, 16]' --bound \"w\"  "
        rule, expected = LinePart(b"[w, w]", 1), LinePart(b"no  match", 11)
        options = ("--on", "[18, 16]", "--bound", "w")
        self.assertEqual(read_rule(text), Line(1, text, rule, expected, (), options))

    def test_signs_in_strings(self) -> None:
        options = b"--on '[\"#\"]' # --on 1"
        line = read_rule(b'[`=> #`, "\\"=> -- #"] => match w="# --", v=`--` ' + options)
        self.assertEqual(line.rule.text, b'[`=> #`, "\\"=> -- #"]')
        self.assertEqual(line.expected.text, b'match w="# --", v=`--`')
        self.assertEqual(line.own, ("--on", '["#"]'))

    def test_first_arrow_parts(self) -> None:
        line = read_rule(b"x=>y=>planned")
        self.assertEqual((line.rule.text, line.expected), (b"x", LinePart(b"y=>planned", 3)))
        line = read_rule(b'x = "y => planned')
        self.assertEqual(line.rule.text, b'x = "y')

    def test_comments_and_blank_lines(self) -> None:
        content = b"# flush sides\n\n \t\r\n  # => planned\nx => planned# yes\r\ny => planned"
        lines = read_rules(content)
        self.assertEqual([line.number for line in lines], [5, 6])
        self.assertEqual([line.expected.text for line in lines], [b"planned", b"planned"])

    def test_mark_of_the_encoding(self) -> None:
        self.assertEqual(list(read_lines(b"\xef\xbb\xbf# no rule\n")), [])
        self.assertEqual(read_rule(b"\xef\xbb\xbfx => planned").text, b"x => planned")

    def test_options_for_the_lines_that_follow(self) -> None:
        content = b"--bound w # both\n\nw => pattern --careful\n --global v\nv => pattern"
        content += b"\n--\nv => pattern"
        rule, other, last = read_rules(content)
        self.assertEqual((rule.shared, rule.own), (("--bound", "w"), ("--careful",)))
        self.assertEqual((other.number, other.shared, last.shared), (5, ("--global", "v"), ()))

    def test_rules_below_options_that_cannot_be_read(self) -> None:
        content = b"v => planned\n --bonud w\nw => pattern\n--bound 'w\nx\n--bound x\nx => pattern"
        first, bad, worse, last = read_lines(content)
        message = f"unrecognized arguments: --bonud w (did you mean --bound?); {NOT_CHECKED}"
        self.assertEqual(bad, Unreadable(2, b" --bonud w", message, 1, 10, 2))
        self.assertEqual((worse.number, last.number), (4, 7))

    def test_rule_that_begins_with_a_minus(self) -> None:
        line = read_rule(b"-1 = x => bind right")
        self.assertEqual(line.rule.text, b"-1 = x")

    def test_bytes_that_are_no_utf_8(self) -> None:
        line = read_rule(b"\"\xff\" => planned --bound '\xff'")
        self.assertEqual((line.rule.text, line.own[1]), (b'"\xff"', "\udcff"))
        message = f"unrecognized arguments: --?; {NOT_CHECKED}"
        self.assertEqual(unreadable(b"--\xff"), Unreadable(1, b"--\xff", message, 0, 3))

    def test_unreadable(self) -> None:
        text = b"x := 1 # => planned"
        message = "this line has no `=>` and what is expected behind it"
        self.assertEqual(unreadable(text), Unreadable(1, text, message, 0, 7))
        text = b"x => planned --on '[1"
        message = "options are quoted as in a shell: no closing quotation"
        self.assertEqual(unreadable(text), Unreadable(1, text, message, 13, 21, 14))
        self.assertEqual(unreadable(b"--bound 'w").start, 0)


if __name__ == "__main__":
    unittest.main()
