"""Pages on the refusals that ask for another rule or another scope."""

from rules.words.explain.page import Page

SCOPES = {
    11: Page(
        "The left of := gives names a value, and here it has none to give one to, and no _. To"
        " compare two values, write =.",
        "tools/plan_rule '1 := 1'",
        "tools/plan_rule '1 = 1'",
    ),
    17: Page(
        "The rule would give a name a value that has one from a line before it, in the same scope"
        " for :=, in any for some-in and for parameters. To compare with that value, write =; for"
        " another value, take another name.",
        "tools/plan_rule 'w := 18' --bound-here w",
        "tools/plan_rule 'w = 18' --bound-here w",
    ),
    18: Page(
        "The planner has no way to plan the two sides. Either both would give names a value where"
        " they meet, as in x = y as long as neither has one, or an array meets an object. An"
        " answer says which. Where one of the names has a value, by a line before it, the rule is"
        " planned.",
        "tools/plan_rule 'x = y'",
        "tools/plan_rule 'x = y' --bound y",
        "Nothing about values: unlike 12 to 16 it doesn't say that the sides never match, and is no"
        " reason to delete the rule. Only where an array meets an object are the two never equal.",
    ),
    31: Page(
        "Rego v1 reserves input and data: a rule may compare with them where they have a value, and"
        " may not give them one. Planned as Rego v0, without --rego v1, they are names as others"
        " are.",
        "tools/plan_rule 'input := 1' --rego v1",
        "tools/plan_rule 'x := input' --rego v1",
    ),
    37: Page(
        "A rule body has 1 to 64 lines.",
        "tools/plan_rule --body /dev/null",
        "echo 'x := 1' | tools/plan_rule --body -",
        "Nothing about the lines: none was looked at.",
    ),
    38: Page(
        "A line of a rule body reads a name that nothing has given a value by then. The answer says"
        " which line binds it, too late, if one does: that line has to stand above. What has a"
        " value before the first line is said by --bound.",
        "echo 'x := y' | tools/plan_rule --body -",
        "echo 'x := y' | tools/plan_rule --body - --bound y",
        "In this order the lines can't be carried out. Of an accepted body it is proved that every"
        " name which a line reads has a value by then (docs/PROOFS.md, crate body).",
    ),
}
