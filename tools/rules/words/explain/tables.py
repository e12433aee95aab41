"""Pages on the refusals of tables and buffers, and of the calls that only a host has."""

from rules.words.explain.page import NO_RULE_TEXT, OF_HOSTS, Page

TOO_LARGE = "Nothing about the rule, but that it is larger than these tables."

TABLES = {
    1: Page(
        "The rule, with the values for its run, is larger than the planner takes: 512 nodes, 512"
        " child entries, 256 numbers, 128 names, 8,192 bytes of strings, 16,384 bytes of text. What"
        " is written is a node: a name, a literal, an array, a set, an object, an expression that"
        " is taken whole. An item, a key and a value are a child entry each.",
        'tools/plan_rule "[$(seq -s , 257)]"',
        "Take a part of the value apart in a line of its own.",
        TOO_LARGE,
    ),
    2: Page(
        "From rule text: a name has more than 255 bytes. From a host: the tables break one of their"
        " rules, or a mark is above 31.",
        "tools/plan_rule $(printf 'n%.0s' $(seq 256))",
        "tools/plan_rule $(printf 'n%.0s' $(seq 255))",
        "Nothing about the rule: its tables were not read.",
    ),
    3: Page(
        "An array, a set or an object has more than 32 levels, the innermost item counted.",
        "tools/plan_rule \"$(printf '[%.0s' $(seq 33))$(printf ']%.0s' $(seq 33))\"",
        "Bind the inner part to a name, and take it apart in a line of its own.",
        TOO_LARGE,
    ),
    4: Page(NO_RULE_TEXT, conclude="The host lists a name twice, which no table may."),
    5: Page(NO_RULE_TEXT, conclude="The host names a node that the tables haven't."),
    6: Page(
        "The plan doesn't fit into the buffer that was lent: 1,536 entries, or what --entries says."
        " The answer says how many it has.",
        "tools/plan_rule '[w, w]' --entries 2",
        "tools/plan_rule '[w, w]' --entries 3",
        "The rule can be planned, with a larger buffer.",
    ),
    7: Page(NO_RULE_TEXT, conclude="The sheet's layout is broken, or a number of it isn't listed."),
    8: Page(OF_HOSTS, conclude="The scope is as it was."),
    30: Page(OF_HOSTS, conclude="The rule is planned; the page buffer is as it was."),
    33: Page(OF_HOSTS, conclude="The name table is as it was."),
    34: Page(OF_HOSTS, conclude="The store is as it was."),
    35: Page(OF_HOSTS, conclude="The store is as it was."),
    36: Page(
        "There is a value that both patterns match, and it doesn't fit into what was lent for it,"
        " or is larger than 512 nodes or deeper than 32 levels.",
        "tools/plan_rule --both '[x, [x]]'"
        " \"[$(printf '[%.0s' $(seq 31))$(printf ']%.0s' $(seq 31)), _]\"",
        conclude="The two patterns have a value in common.",
    ),
}
