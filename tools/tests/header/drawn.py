"""Rule text drawn at random: all that rule text may be, and text that is nearly so."""

import random

LEAVES = ["x", "y", "_", "long_name", "input", "set", "7", "-3", "0", "18446744073709551615"]
LEAVES += ['"a"', '"é\\n\\/\\""', "`raw [`", "true", "false", "null", "set()", "[]"]
# Characters at the edges of their lengths in UTF-8.
LEAVES += ['"\\u007f\\u0080\\u07Ff\\u0800\\uffff\\ud800\\udc00\\udbff\\udfff"']
# Taken whole, as are the leaves that stand in operators: those can't be put.
WHOLE = ["f(x)", "f()", "a.b[c].d", "(x)", "-x", "- 5", "[x | x := [1]]", "{k: v | v}"]
WHOLE += ["{x | y}", "x + 1", "x - 1", "18.5 + x", '"\\q" + 1', "007 * y", "x in [1]", "x == y"]
WHOLE += ["[1, 2] | {3}", "[x][0]", "{1}.y", "1 < 2.5e3", "-[x]", "set().a", "f({[(`)`)]})"]
SIGNS = list("[]{}(),:=.|-+#\"`'\\x1 _\té") + [":=", "in ", "some ", "\\u", "set("]
BLANKS = ["", "", "", " ", "\t", "  "]


def drawn_expression(chance: random.Random, depth: int) -> str:
    kind = chance.randrange(8) if depth else chance.randrange(3)
    if kind < 3:
        return chance.choice(WHOLE if kind == 0 else LEAVES)
    items = [drawn_expression(chance, depth - 1) for _ in range(chance.randrange(4))]
    if kind < 5:
        return listed(chance, "[", items, "]")
    if kind == 5 and items:
        return listed(chance, "{", items, "}")
    fields = [f"{drawn_key(chance)}{blank(chance)}:{blank(chance)}{item}" for item in items]
    return listed(chance, "{", fields, "}")


def drawn_key(chance: random.Random) -> str:
    return drawn_expression(chance, 0)


def blank(chance: random.Random) -> str:
    return chance.choice(BLANKS)


def listed(chance: random.Random, opening: str, items: list[str], closing: str) -> str:
    parted = f"{blank(chance)},{blank(chance)}".join(items)
    last = chance.choice([",", "", "", ""]) if items else ""
    return f"{opening}{blank(chance)}{parted}{last}{blank(chance)}{closing}"


def drawn_rule(chance: random.Random) -> str:
    first, second, third = (drawn_expression(chance, chance.randrange(4)) for _ in range(3))
    forms = [first, f"{first} = {second}", f"{first}:={second}", f"some {first} in {second}"]
    forms.append(f"some {first}, {second} in {third}")
    return blank(chance) + chance.choice(forms) + chance.choice(["", "", " # a comment ["])


def spoiled(chance: random.Random, text: str) -> str:
    """The text with a sign more or less."""
    place = chance.randrange(len(text))
    sign = chance.choice(["", chance.choice(SIGNS)])
    return text[:place] + sign + text[place + chance.randrange(2) :]


def drawn_bytes(chance: random.Random) -> bytes:
    """A few signs, a byte of any value among them now and then."""
    signs = [chance.choice(SIGNS + LEAVES).encode() for _ in range(chance.randrange(1, 12))]
    return b"".join(chance.choice([sign] * 15 + [chance.randbytes(1)]) for sign in signs)
