"""Pages on the refusals by shape, 12 to 16, which let one conclude that a rule never matches."""

from rules.words.explain.page import Page

NEVER = (
    "If both sides are made of names, _, literals, arrays, and objects with literal keys, none"
    " twice in an object, then no values whatever make them equal, in this or any other scope: the"
    " rule can be deleted. That is proved, without and with --careful (docs/PROOFS.md,"
    ' "shape_refusals"), and oracle/no_match tries it on more than a million refused rules. With a'
    ' key twice it says less: {"a": x} := {"a": 1, "a": 1} is refused with 14, and x = 1 makes both'
    " sides equal. Of sides with sets, calls or computed keys nothing is said. The last line of the"
    " answer says what holds of the rule at hand."
)
NO_ITEM = f"{NEVER} Of some-in it means that no item of the collection can equal the pattern."

SHAPES = {
    12: Page(
        "Both sides of = have names to bind, so they are taken apart side by side, and two arrays"
        " that meet have different lengths.",
        "tools/plan_rule '[[x], 1] = [[1, 2], y]'",
        "tools/plan_rule '[[x, _], 1] = [[1, 2], y]'",
        NEVER,
    ),
    13: Page(
        "The pattern asks for an array of one length, and the value, which is written out, has"
        " another at that place. An item for each is needed, _ where it may be any.",
        "tools/plan_rule '[w, w] := [18, 18, 3]'",
        "tools/plan_rule '[w, w, _] := [18, 18, 3]'",
        NO_ITEM,
    ),
    14: Page(
        "The pattern asks for an object with certain keys, and the value, which is written out, has"
        ' others. Objects are matched by all their keys: write "right": _ for one that may be'
        " anything.",
        """tools/plan_rule '{"left": w} := {"left": 18, "right": 18}'""",
        """tools/plan_rule '{"left": w, "right": _} := {"left": 18, "right": 18}'""",
        NO_ITEM,
    ),
    15: Page(
        "Both sides of = have names to bind, so they are taken apart side by side, and two objects"
        " that meet have different numbers of fields.",
        """tools/plan_rule '{"a": x} = {"a": 1, "b": y}'""",
        """tools/plan_rule '{"a": x, "b": 2} = {"a": 1, "b": y}'""",
        NEVER,
    ),
    16: Page(
        "Both sides of = have names to bind, so they are taken apart side by side, and an object on"
        " the right has a key that the one on the left hasn't.",
        """tools/plan_rule '[{"a": x}, 1] = [{"b": 2}, y]'""",
        """tools/plan_rule '[{"b": x}, 1] = [{"b": 2}, y]'""",
        NEVER,
    ),
}
