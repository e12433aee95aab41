"""Pages on the refusals of runs."""

from rules.words.explain.page import NO_RULE_TEXT, Page

NOT_RUN = "Nothing about a match: nothing was run."

RUNS = {
    20: Page(NO_RULE_TEXT, conclude=NOT_RUN),
    21: Page(
        "A run takes a pattern of names, _, literals, arrays, and objects with literal keys that"
        " differ. A set, a call or a computed key can be planned, and not run. The place says"
        " which it is.",
        "tools/plan_rule '[x, f(y)]' --on '[1, 2]'",
        "tools/plan_rule '[x, y]' --on '[1, 2]'",
        NOT_RUN,
    ),
    22: Page(
        "A value is made of literals, arrays, and objects with literal keys that differ. A name"
        " there is most often a string without its quotes.",
        "tools/plan_rule '\"oak\"' --on oak",
        "tools/plan_rule '\"oak\"' --on '\"oak\"'",
        NOT_RUN,
    ),
    23: Page(
        "The pattern compares with a name that has a value when the rule is reached, and which"
        " value that is was not said.",
        "tools/plan_rule '[w, t]' --on '[18, 16]' --bound w",
        "tools/plan_rule '[w, t]' --on '[18, 16]' --given w=18",
        NOT_RUN,
    ),
    32: Page(
        "A number that is measured is written by its lowest and its highest, in this order.",
        "tools/plan_rule w --on 19..17",
        "tools/plan_rule w --on 17..19",
        NOT_RUN,
    ),
}
