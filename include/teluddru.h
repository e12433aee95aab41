/*
 * Teluddru: plans how the patterns of joinery rules take values apart. Nine calls over tables that the host lends
 * (planning, a rule body, Run, where a run missed, Run with tolerances, an example that two patterns both match, the
 * names report, adding a name, which rule of the tables is broken), and two over a sheet's text (its listing, its
 * pages for print). Four more are of a plan store, in which rule packs keep plans. teluddru_tables.h makes tables.
 *
 * What a call assumes. Of the words and bytes that it is lent: nothing. Whatever they are, a call
 * returns; what breaks a rule is refused. It reads and writes only the ranges that it is given,
 * allocates and keeps nothing, so calls may run at the same time. Of the ranges it assumes what C can't say:
 * - a pointer points to as many elements as the length behind it counts, aligned for their type;
 * - a range that is written overlaps no other range of the same call; those that are only read may
 *   overlap each other;
 * - a pointer is not null, but that of a range of length 0 may be.
 *
 * Cost, the last line on a call, is what it takes of the processor on the machine of docs/PERFORMANCE.md: for a rule of a
 * kitchen, of some 45 nodes, and over tables at their limits. Long keys are strings of some 8,000 bytes that differ late.
 */
#ifndef TELUDDRU_H
#define TELUDDRU_H

#include <stddef.h>
#include <stdint.h>

#ifdef __cplusplus
extern "C" {
#endif

/* CHANGELOG.md says what a version changed. A.B.C has the number 10000 A + 100 B + C. */
#define TELUDDRU_VERSION "0.1.0"
#define TELUDDRU_VERSION_NUMBER 100

/*
 * Sizes that always suffice: no well-formed sheet is longer than the first, no listing longer than the second
 * (a line of 25 bytes and 1,536 entries of 31), no plan of a sheet has more pages than the third holds (26).
 */
#define TELUDDRU_SHEET_BYTES 51914
#define TELUDDRU_LISTING_BYTES 47641
#define TELUDDRU_PAGES_BYTES 113880
#define TELUDDRU_PLAN_ENTRIES 1536

/* A plan store: its words, its entries, and the most packs that share it. */
#define TELUDDRU_STORE_WORDS 7697
#define TELUDDRU_STORE_ENTRIES 1536
#define TELUDDRU_MOST_PACKS 8

/* A page: lines, characters of a line, and bytes (each line ends in LF). */
#define TELUDDRU_PAGE_LINES 60
#define TELUDDRU_PAGE_WIDTH 72
#define TELUDDRU_PAGE_BYTES 4380

/*
 * What a call needs at most of its thread's stack: measured on the worst sheets that were found (examples/stack),
 * not proved. Proved is what it rests on: planning calls itself at most 32 deep, the depth of tables. A call keeps nothing
 * between calls, so calls from several threads are independent.
 */
#define TELUDDRU_STACK_BYTES 98304

/* Words of a node, a number, a name, a plan's entry and an answer; of a rule body's answer and of its lines. */
#define TELUDDRU_NODE_WORDS 5
#define TELUDDRU_NUMBER_WORDS 2
#define TELUDDRU_NAME_WORDS 2
#define TELUDDRU_ENTRY_WORDS 5
#define TELUDDRU_ANSWER_WORDS 4
#define TELUDDRU_BODY_ANSWER_WORDS 5
#define TELUDDRU_LINE_WORDS 4

/* Limits of the tables. */
#define TELUDDRU_MOST_NODES 512
#define TELUDDRU_MOST_CHILDREN 512
#define TELUDDRU_MOST_NUMBERS 256
#define TELUDDRU_MOST_NAMES 128
#define TELUDDRU_MOST_NAME_BYTES 255
#define TELUDDRU_MOST_STRING_BYTES 8192
#define TELUDDRU_MOST_TEXT_BYTES 16384
#define TELUDDRU_MOST_DEPTH 32
#define TELUDDRU_MOST_LINES 64 /* of a rule body */

/* Operations. */
enum teluddru_operation {
    TELUDDRU_PATTERN = 1,
    TELUDDRU_COLON_EQUALS = 2,
    TELUDDRU_EQUALS = 3,
    TELUDDRU_SOME_IN = 4,
    TELUDDRU_INDEX = 5,
    TELUDDRU_PARAMETER = 6
};

/* The scope is that of a scheduler or not: under a scheduler a local name is unbound. */
enum teluddru_scheduler {
    TELUDDRU_NO_SCHEDULER = 0,
    TELUDDRU_SCHEDULER = 1
};

/*
 * Read by patterns and parameters. `:=`, `=` where one side binds and some-in take from it only how a pattern is
 * held against a literal expression: by 3 and 4 carefully, so that a mismatch behind an item whose shape says nothing
 * is refused too (TELUDDRU_ARRAY_LENGTH_MISMATCH, TELUDDRU_OBJECT_LITERAL_KEYS_MISMATCH). Else 3 acts as 1, and 4 as 2.
 */
enum teluddru_scoping {
    TELUDDRU_RESPECT_PARENT = 1,
    TELUDDRU_ALLOW_SHADOWING = 2,
    TELUDDRU_RESPECT_PARENT_CAREFUL = 3,
    TELUDDRU_ALLOW_SHADOWING_CAREFUL = 4
};

/* The version of Rego that a rule is written for: v1 reserves `input` and `data`. Any number but 1 counts as 0. */
enum teluddru_rego {
    TELUDDRU_REGO_V0 = 0,
    TELUDDRU_REGO_V1 = 1
};

/* Marks of a name, summed. */
enum teluddru_mark {
    TELUDDRU_MARK_BOUND = 1,
    TELUDDRU_MARK_BOUND_HERE = 2, /* in this scope */
    TELUDDRU_MARK_UNBOUND = 4,
    TELUDDRU_MARK_LOCAL = 8,
    TELUDDRU_MARK_GLOBAL = 16
};

/*
 * The rules of the tables, in the order in which teluddru_table_fault asks them: the second number of its answer. The
 * third is the place where the rule is first broken: a node, child entry, number or name, from 1, or 0 where the rule is
 * of the tables as a whole. Tables that break one are refused by every call, with the number that stands at the rule's group.
 */
enum teluddru_rule {
    TELUDDRU_RULES_KEPT = 0,
    /* Limits: TELUDDRU_OVER_LIMIT. */
    TELUDDRU_RULE_MOST_NODES = 1,          /* at most 512 nodes */
    TELUDDRU_RULE_MOST_CHILDREN = 2,       /* at most 512 child entries */
    TELUDDRU_RULE_MOST_NUMBERS = 3,        /* at most 256 numbers */
    TELUDDRU_RULE_MOST_NAMES = 4,          /* at most 128 names */
    TELUDDRU_RULE_MOST_STRING_BYTES = 5,   /* at most 8,192 string bytes */
    TELUDDRU_RULE_MOST_TEXT_BYTES = 6,     /* at most 16,384 bytes of text */
    /* TELUDDRU_BREAKS_RULES. */
    TELUDDRU_RULE_NODE_WORDS = 7,          /* nodes are five words each */
    TELUDDRU_RULE_NUMBER_WORDS = 8,        /* numbers are two words each */
    TELUDDRU_RULE_NAME_WORDS = 9,          /* names are two words each */
    TELUDDRU_RULE_NAME_RANGE = 10,         /* name: it has 1 to 255 bytes, which lie within the text */
    TELUDDRU_RULE_NUMBER = 11,             /* number: its first word is 0 or 1; none is minus zero or below -9223372036854775808 */
    TELUDDRU_RULE_CHILD_NUMBER = 12,       /* child entry: used or not, it is the number of a node, from 1 */
    TELUDDRU_RULE_KIND = 13,               /* node: its kind is 1 to 10 */
    TELUDDRU_RULE_SOURCE = 14,             /* node: its start is at most its end, and its end at most the text's length */
    TELUDDRU_RULE_UNUSED_WORD = 15,        /* node: a word that its kind doesn't use is 0 */
    TELUDDRU_RULE_RANGE = 16,              /* node: first and count lie within what they point into; a bool's first is 0 or 1 */
    TELUDDRU_RULE_NAME_TEXT = 17,          /* node: a name's text, from start to end, is its name's bytes */
    TELUDDRU_RULE_CHILD_BELOW_PARENT = 18, /* node: its children's numbers are below its own */
    TELUDDRU_RULE_CHILD_TWICE = 19,        /* child entry: no earlier one is the same node; a name that is written twice has two nodes */
    TELUDDRU_RULE_CHILD_SHARED = 20,       /* node: no earlier node uses its child entries */
    TELUDDRU_RULE_MARK = 21,               /* name: its mark is at most 31; of the marks past the names too, up to 128 */
    TELUDDRU_RULE_DEPTH = 22,              /* node: at most 32 levels; TELUDDRU_TOO_DEEP */
    TELUDDRU_RULE_EQUAL_NAMES = 23         /* name: no earlier one has its bytes; TELUDDRU_EQUAL_NAMES */
};

/*
 * The kind of a node, its first word. Then come start and end in the rule text, first and count; an unused word is 0.
 * Start and end of any node but a name may be 0. All nodes keep enum teluddru_rule, reached from a root or not.
 */
enum teluddru_node {
    TELUDDRU_NODE_STRING = 1,     /* first, count: place and length in the strings */
    TELUDDRU_NODE_RAW_STRING = 2, /* first, count: place and length in the text */
    TELUDDRU_NODE_NUMBER = 3,     /* first: place in the numbers */
    TELUDDRU_NODE_BOOL = 4,       /* first: 0 or 1 */
    TELUDDRU_NODE_NULL = 5,
    TELUDDRU_NODE_NAME = 6,       /* first: the name's number, from 1 */
    TELUDDRU_NODE_ARRAY = 7,      /* first, count: place in the children, items */
    TELUDDRU_NODE_SET = 8,        /* first, count: place in the children, items */
    TELUDDRU_NODE_OBJECT = 9,     /* first, count: place in the children, fields (key, then value) */
    TELUDDRU_NODE_OTHER = 10
};

/* Why a run misses. A key is missing in the value's object, or is too many there. */
enum teluddru_miss {
    TELUDDRU_MISS_NAME = 1,       /* a name's value differs */
    TELUDDRU_MISS_LITERAL = 2,    /* a literal differs */
    TELUDDRU_MISS_NO_ARRAY = 3,
    TELUDDRU_MISS_LENGTH = 4,     /* an array of another length */
    TELUDDRU_MISS_NO_OBJECT = 5,
    TELUDDRU_MISS_KEY_MISSING = 6,
    TELUDDRU_MISS_KEY_TOO_MANY = 7
};

/* The first number of an answer. A refusal's goes on with its place (a node or 0) and two counts, 0 where none is named. */
enum teluddru_answer {
    TELUDDRU_PLANNED = 0,                   /* then form, side, entries */
    TELUDDRU_REPORTED = 0,
    TELUDDRU_PAGES = 0,                     /* then the number of pages, which may be 0 */
    TELUDDRU_READY = 0,                     /* a store is set up, or emptied */
    TELUDDRU_KEPT = 0,                      /* then the plan's place */
    TELUDDRU_NAMED = 0,                     /* then the name's number, and 1 where it was added or 0 */
    TELUDDRU_NO_FAULT = 0,                  /* the tables keep the rules */
    TELUDDRU_MATCH = 0,
    TELUDDRU_NO_MATCH = 100,                /* from teluddru_first_miss then the value's node, the pattern's, why */
    TELUDDRU_ALWAYS = 0,                    /* whatever the numbers are; teluddru_run_with_tolerance alone, as the next two */
    TELUDDRU_NEVER = 100,
    TELUDDRU_SOMETIMES = 101,
    TELUDDRU_EXAMPLE = 0,                   /* then the value's node, the nodes and the child entries written */
    TELUDDRU_NO_EXAMPLE = 100,
    TELUDDRU_OVER_LIMIT = 1,
    TELUDDRU_BREAKS_RULES = 2,              /* or a mark is above 31; teluddru_table_fault says which rule, and where */
    TELUDDRU_TOO_DEEP = 3,
    TELUDDRU_EQUAL_NAMES = 4,
    TELUDDRU_ROOT_OUTSIDE = 5,
    TELUDDRU_PLAN_TOO_LARGE = 6,            /* first count: entries needed */
    TELUDDRU_LAYOUT_BROKEN = 7,             /* a number that isn't listed, too */
    TELUDDRU_COLON_EQUALS_REQUIRES_BINDABLE_LEFT = 11, /* place: the left */
    TELUDDRU_ARRAY_SIZE_MISMATCH = 12,      /* the left array; both lengths */
    TELUDDRU_ARRAY_LENGTH_MISMATCH = 13,    /* the value array; expected, actual */
    TELUDDRU_OBJECT_LITERAL_KEYS_MISMATCH = 14, /* the value object; the pattern object's node */
    TELUDDRU_OBJECT_FIELD_COUNT_MISMATCH = 15, /* the left object; left distinct keys, right fields */
    TELUDDRU_OBJECT_KEY_NOT_FOUND = 16,     /* the right key */
    TELUDDRU_VARIABLE_ALREADY_DEFINED = 17, /* the name */
    TELUDDRU_INCOMPATIBLE_DESTRUCTURING_PATTERNS = 18, /* the binding side, in pairs the left */
    TELUDDRU_LIST_TOO_SHORT = 20,           /* the list is shorter than the names */
    TELUDDRU_PATTERN_NOT_SIMPLE = 21,       /* it has a set, another expression, a computed or a repeated key */
    TELUDDRU_NOT_A_VALUE = 22,              /* the value, or a listed node */
    TELUDDRU_NAME_WITHOUT_VALUE = 23,       /* a known name of the pattern */
    TELUDDRU_PAGE_BUFFER_TOO_SHORT = 30,    /* the pages don't fit; after all other refusals */
    TELUDDRU_RESERVED_NAME = 31,            /* the name; planning for TELUDDRU_REGO_V1 alone */
    TELUDDRU_RANGE_WRONG = 32,              /* a lowest and a highest number; teluddru_run_with_tolerance alone */
    TELUDDRU_NO_PLACE = 33,                 /* for the name: the table is full, or has 128; teluddru_add_name alone */
    TELUDDRU_SHARES_REFUSED = 34,           /* set-up: shares above 1,536 in all, more than eight packs, or words of another length */
    TELUDDRU_STORE_REFUSED = 35,            /* keeping: no space, a plan that ends past its buffer, an unknown pack; words that are no store */
    TELUDDRU_VALUE_TOO_LARGE = 36,          /* the example; after all other refusals of both sides */
    TELUDDRU_NOT_A_BODY = 37,               /* words that are no lines of a rule body, or too few or many; teluddru_plan_body alone */
    TELUDDRU_NAME_NOT_READY = 38            /* the name, which has no value yet; teluddru_plan_body alone */
};

/* The form of a plan, its answer's second number: of an assignment, or of some-in with a key; else 0. */
enum teluddru_form {
    TELUDDRU_NO_FORM = 0,
    TELUDDRU_FORM_COLON_EQUALS = 1,
    TELUDDRU_FORM_SOME_IN_KEY = 1,
    TELUDDRU_FORM_BIND_LEFT = 2,
    TELUDDRU_FORM_BIND_RIGHT = 3,
    TELUDDRU_FORM_PAIRS = 4,
    TELUDDRU_FORM_EQUALITY_CHECK = 5,
    TELUDDRU_FORM_WILDCARD = 6
};

/* Which side of an assignment of form 6 is `_`, its answer's third number; else 0. */
enum teluddru_side {
    TELUDDRU_NO_SIDE = 0,
    TELUDDRU_SIDE_LEFT = 1,
    TELUDDRU_SIDE_RIGHT = 2,
    TELUDDRU_SIDE_BOTH = 3
};

/*
 * The kind of an entry, its first word. Then come node, number of children, key node or 0, and the written
 * position under its parent: from 1, fields that a repeated key replaced counted, below a pair 1; 0 without a parent.
 */
enum teluddru_entry {
    TELUDDRU_ENTRY_BIND = 1,
    TELUDDRU_ENTRY_IGNORE = 2,
    TELUDDRU_ENTRY_COMPARE_EXPRESSION = 3,
    TELUDDRU_ENTRY_COMPARE_LITERAL = 4,
    TELUDDRU_ENTRY_ARRAY = 5,
    TELUDDRU_ENTRY_OBJECT = 6,
    TELUDDRU_ENTRY_PAIR = 7,
    /* Their former names, which end with the next version. */
    TELUDDRU_BIND = 1,
    TELUDDRU_IGNORE = 2,
    TELUDDRU_COMPARE_EXPRESSION = 3,
    TELUDDRU_COMPARE_LITERAL = 4,
    TELUDDRU_ARRAY = 5,
    TELUDDRU_OBJECT = 6,
    TELUDDRU_PAIR = 7
};

/* What the names report says of a name. */
enum teluddru_reported {
    TELUDDRU_NAME_NOT_MET = 0,
    TELUDDRU_NAME_BOUND = 1, /* in the plan */
    TELUDDRU_NAME_MET = 2    /* through arrays and object values, or a computed key there; not bound */
};

/* The TELUDDRU_VERSION_NUMBER that the library was built with, to be held against the header's. */
uint32_t teluddru_version(void);

/*
 * The calls over tables. Each is lent the six tables (nodes of five words; children; numbers of two
 * words, 1 for below zero or 0, then the size, from -9223372036854775808 to 18446744073709551615, where
 * minus zero is none; names of two words, start and length in the text; the string bytes; the rule text)
 * and a byte of marks for each name: at most 128 are read, and a name past them has none. A call with an
 * operation, scheduler or scoping that isn't listed above is refused with TELUDDRU_LAYOUT_BROKEN before
 * all else. Then come the table check's refusals: TELUDDRU_OVER_LIMIT, TELUDDRU_BREAKS_RULES, for a mark
 * above 31 among those read too, TELUDDRU_TOO_DEEP, TELUDDRU_EQUAL_NAMES.
 *
 * The answer is four words (of a rule body five), of which as many are written as there is space for;
 * words past them stay as they were. Its first number is also the result, whether or not there is space for it.
 */

/*
 * Plans an operation. Roots: first (left, pattern or value pattern), second (right or collection),
 * key (some-in's, 0 for none); those that the operation doesn't use are ignored. The version is one of
 * enum teluddru_rego: for v1 a pattern that would plan `input` or `data` is refused; run, names report
 * and sheets are v0. The plan's entries, then zeros, are written to the plan; if the call is refused,
 * zeros. A pattern's, a loop index's or a parameter's plan has at most 512 entries.
 * Cost: 2 microseconds; at the limits 4 to 120, 250 long keys 340.
 */
uint32_t teluddru_plan(const uint32_t *nodes, size_t nodes_length,
                       const uint32_t *children, size_t children_length,
                       const uint64_t *numbers, size_t numbers_length,
                       const uint32_t *names, size_t names_length,
                       const uint8_t *strings, size_t strings_length,
                       const uint8_t *text, size_t text_length,
                       const uint8_t *marks, size_t marks_length,
                       uint32_t operation, uint32_t scheduler, uint32_t scoping,
                       uint32_t first, uint32_t second, uint32_t key, uint32_t version,
                       uint32_t *plan, size_t plan_length,
                       uint32_t *answer, size_t answer_length);

/*
 * Plans a rule body: 1 to 64 lines, one after the other, at v0; what a line's plan binds is bound in the scope before the
 * next. A line is four words: its operation (TELUDDRU_COLON_EQUALS, TELUDDRU_EQUALS, TELUDDRU_SOME_IN or TELUDDRU_INDEX),
 * then first, second and key as of teluddru_plan.
 *
 * A planned line's value sides are searched for names that have no value yet: the right of `:=`; of `=` the side that does
 * not bind, the value side of each pair, both sides where none binds, the side beside `_`; a collection. Then its plan's
 * computed keys. The search goes through arrays, sets and objects, keys included, and passes over `_`. The first name
 * that is neither known at the start nor bound by an earlier line or pair is refused with TELUDDRU_NAME_NOT_READY.
 *
 * Refusals in order: TELUDDRU_LAYOUT_BROKEN (the scheduler), TELUDDRU_NOT_A_BODY, then each line's as of teluddru_plan,
 * those of the table check with the first line, and TELUDDRU_NAME_NOT_READY after the others of its line.
 *
 * The plan is that of the last line; it has to have space for each line's in turn. If the call is refused, it is zeros.
 * The marks are read as by teluddru_plan; after an accepted body they are those of the scope then, as far as there is
 * space (128 at most), and otherwise unchanged. The answer is five words: four as of teluddru_plan, of the last line or
 * of the refused one, then the refused line, from 1; the fifth is 0 where the body is accepted, and for
 * TELUDDRU_LAYOUT_BROKEN and TELUDDRU_NOT_A_BODY.
 * Cost: a line up to a quarter more than a planning call; 64 lines at the limits 400 to 3,200 microseconds.
 */
uint32_t teluddru_plan_body(const uint32_t *nodes, size_t nodes_length,
                            const uint32_t *children, size_t children_length,
                            const uint64_t *numbers, size_t numbers_length,
                            const uint32_t *names, size_t names_length,
                            const uint8_t *strings, size_t strings_length,
                            const uint8_t *text, size_t text_length,
                            uint8_t *marks, size_t marks_length,
                            uint32_t scheduler, const uint32_t *lines, size_t lines_length,
                            uint32_t *plan, size_t plan_length,
                            uint32_t *answer, size_t answer_length);

/*
 * Plans a pattern and carries the plan out on a value. The values have for each name number the node
 * of its value, or 0; a match sets those of the pattern's names that aren't known, and nothing else
 * changes any. Where the tables change between two runs, clear the values: a number among them that is no
 * value's node any more is refused with TELUDDRU_NOT_A_VALUE, whosever it is. The plan is made anew in each
 * run, and written as by teluddru_plan. Answers TELUDDRU_MATCH, TELUDDRU_NO_MATCH or a refusal.
 * Cost: 4 microseconds; at the limits 8 to 18, objects of 127 keys 260, of 127 long keys 4,000.
 */
uint32_t teluddru_run(const uint32_t *nodes, size_t nodes_length,
                      const uint32_t *children, size_t children_length,
                      const uint64_t *numbers, size_t numbers_length,
                      const uint32_t *names, size_t names_length,
                      const uint8_t *strings, size_t strings_length,
                      const uint8_t *text, size_t text_length,
                      const uint8_t *marks, size_t marks_length,
                      uint32_t scheduler, uint32_t scoping, uint32_t pattern, uint32_t value,
                      uint32_t *values, size_t values_length,
                      uint32_t *plan, size_t plan_length,
                      uint32_t *answer, size_t answer_length);

/*
 * Where a run of the pattern on the value misses: the run again, from the same values, without a plan. It writes
 * nothing but the answer. The first number is that of teluddru_run, but that TELUDDRU_PLAN_TOO_LARGE never comes.
 * With TELUDDRU_NO_MATCH come the value's node that missed, the pattern's node that asked, and why (enum
 * teluddru_miss). Array items and object fields are taken as the pattern has them. Of two objects the keys come
 * first: the least key of the pattern, in key order, that the value lacks (the pattern's node is the key), then the
 * value's first key, as written, that the pattern lacks (the value's node is the key).
 * Cost: 3 microseconds; at the limits 8 to 14, objects of 127 keys 360, of 127 long keys 5,500.
 */
uint32_t teluddru_first_miss(const uint32_t *nodes, size_t nodes_length,
                             const uint32_t *children, size_t children_length,
                             const uint64_t *numbers, size_t numbers_length,
                             const uint32_t *names, size_t names_length,
                             const uint8_t *strings, size_t strings_length,
                             const uint8_t *text, size_t text_length,
                             const uint8_t *marks, size_t marks_length,
                             uint32_t scheduler, uint32_t scoping, uint32_t pattern, uint32_t value,
                             const uint32_t *values, size_t values_length,
                             uint32_t *answer, size_t answer_length);

/*
 * Runs as teluddru_run does, on numbers that are only known to lie between a lowest and a highest, as measures
 * are: each number of the value, or of a known name's value, that is no object key. A number that is exact has
 * itself at both ends; a literal of the pattern is always exact. Each list has two words a node, as the numbers
 * have (1 for below zero or 0, then the size): those of node n are words (n - 1) * 2 and (n - 1) * 2 + 1, and
 * those of nodes that are no such number are not read. Answers TELUDDRU_ALWAYS if the pattern matches whatever
 * these numbers are, TELUDDRU_SOMETIMES if it matches for some of them and not for all, TELUDDRU_NEVER if for
 * none, or a refusal: after those of a run, TELUDDRU_PLAN_TOO_LARGE aside, TELUDDRU_RANGE_WRONG, for a list
 * shorter than the nodes, and for such a number whose lowest is above its highest or whose ends are no numbers.
 * The plan is written as by teluddru_run; only TELUDDRU_ALWAYS sets names, each to the node that it meets.
 * Cost: 9 microseconds; at the limits 22 to 47, objects of 127 keys 180, of 127 long keys 2,500.
 */
uint32_t teluddru_run_with_tolerance(const uint32_t *nodes, size_t nodes_length,
                                     const uint32_t *children, size_t children_length,
                                     const uint64_t *numbers, size_t numbers_length,
                                     const uint32_t *names, size_t names_length,
                                     const uint8_t *strings, size_t strings_length,
                                     const uint8_t *text, size_t text_length,
                                     const uint8_t *marks, size_t marks_length,
                                     uint32_t scheduler, uint32_t scoping, uint32_t pattern, uint32_t value,
                                     uint32_t *values, size_t values_length,
                                     const uint64_t *lowest, size_t lowest_length,
                                     const uint64_t *highest, size_t highest_length,
                                     uint32_t *plan, size_t plan_length,
                                     uint32_t *answer, size_t answer_length);

/*
 * Gives an example that two patterns of the same tables both match: TELUDDRU_EXAMPLE with the value's node and how
 * many nodes and child entries were written, or TELUDDRU_NO_EXAMPLE, exactly if no value is matched by both. Each side
 * has its own marks, scheduler, scoping, pattern and values by name number (0 for none), and its own names: x of the
 * one is not x of the other. A known name holds its listed value; places that nothing fixes are null. The value's
 * nodes are numbered on from the tables' and written, five words each, to example_nodes, children before parents;
 * its child entries go on from the children and are written to example_children. So the tables with both
 * appended hold the value, and a run of each pattern on its node matches, where they are within the limits. Both lists
 * are zeros past the value, and throughout at TELUDDRU_NO_EXAMPLE or a refusal. Refusals: TELUDDRU_LAYOUT_BROKEN of
 * either side, then those of teluddru_run of the first side, of the value list and of listed nodes as there, then those
 * of the second, then TELUDDRU_VALUE_TOO_LARGE: the value needs more nodes or child entries than were lent, more
 * than TELUDDRU_MOST_NODES nodes, or a depth above TELUDDRU_MOST_DEPTH.
 * Cost: 40 microseconds; at the limits 40 to 550, long strings or keys 2,300, the slowest that was found 3,200.
 */
uint32_t teluddru_common_example(const uint32_t *nodes, size_t nodes_length,
                                 const uint32_t *children, size_t children_length,
                                 const uint64_t *numbers, size_t numbers_length,
                                 const uint32_t *names, size_t names_length,
                                 const uint8_t *strings, size_t strings_length,
                                 const uint8_t *text, size_t text_length,
                                 const uint8_t *first_marks, size_t first_marks_length,
                                 uint32_t first_scheduler, uint32_t first_scoping, uint32_t first_pattern,
                                 const uint32_t *first_values, size_t first_values_length,
                                 const uint8_t *second_marks, size_t second_marks_length,
                                 uint32_t second_scheduler, uint32_t second_scoping, uint32_t second_pattern,
                                 const uint32_t *second_values, size_t second_values_length,
                                 uint32_t *example_nodes, size_t example_nodes_length,
                                 uint32_t *example_children, size_t example_children_length,
                                 uint32_t *answer, size_t answer_length);

/*
 * Reports the names of a pattern: for each name a word of enum teluddru_reported in the list, then
 * zeros; if the call is refused, zeros.
 * Cost: 2 microseconds; at the limits 4 to 12, objects of 127 keys 27, of 127 long keys 320.
 */
uint32_t teluddru_names_report(const uint32_t *nodes, size_t nodes_length,
                               const uint32_t *children, size_t children_length,
                               const uint64_t *numbers, size_t numbers_length,
                               const uint32_t *names, size_t names_length,
                               const uint8_t *strings, size_t strings_length,
                               const uint8_t *text, size_t text_length,
                               const uint8_t *marks, size_t marks_length,
                               uint32_t scheduler, uint32_t scoping, uint32_t pattern,
                               uint32_t *list, size_t list_length,
                               uint32_t *answer, size_t answer_length);

/*
 * Says which rule of the tables is broken: the table check's number, then the first broken rule of enum
 * teluddru_rule and the first place where it is broken, then 0; TELUDDRU_NO_FAULT and zeros where all are kept. The
 * number is the one with which the calls above refuse the same tables and marks, where what they are given beside
 * these is listed.
 * Cost: 5 microseconds; at the limits 140 to 250.
 */
uint32_t teluddru_table_fault(const uint32_t *nodes, size_t nodes_length,
                              const uint32_t *children, size_t children_length,
                              const uint64_t *numbers, size_t numbers_length,
                              const uint32_t *names, size_t names_length,
                              const uint8_t *strings, size_t strings_length,
                              const uint8_t *text, size_t text_length,
                              const uint8_t *marks, size_t marks_length,
                              uint32_t *answer, size_t answer_length);

/*
 * The plan store: TELUDDRU_STORE_ENTRIES entries that up to TELUDDRU_MOST_PACKS rule packs share, numbered
 * from 1. Each pack has a reserved share, in entries; what no share covers is common. The store is
 * TELUDDRU_STORE_WORDS words of the host's, which these calls alone understand and write; they may be
 * copied. Words that these calls can't give, or of another length, are no store. A refusal leaves the store
 * as it was.
 *
 * Sets up a store, whatever stood in its words: a share for each pack, no entries. Its result is
 * TELUDDRU_READY or TELUDDRU_SHARES_REFUSED.
 * Cost: 0.02 microseconds.
 */
uint32_t teluddru_store_set_up(uint32_t *store, size_t store_length,
                               const uint32_t *shares, size_t shares_length);

/*
 * Keeps a plan, the first entries of a buffer, for a pack: exactly if the pack's free reserve, and then the
 * free common part, can take all of them. The answer is four words, written as those of the calls over
 * tables: TELUDDRU_KEPT and the plan's place, how many of its pack's entries stand before it, or
 * TELUDDRU_STORE_REFUSED.
 * Cost: 0.02 to 1 microseconds, as many words are written or moved.
 */
uint32_t teluddru_store_keep(uint32_t *store, size_t store_length, uint32_t pack,
                             const uint32_t *plan, size_t plan_length, uint32_t entries,
                             uint32_t *answer, size_t answer_length);

/*
 * Reads a pack's entry by its place, so a plan's first by the plan's place: its five words, or zeros if
 * there is none or this is no store. As many are written as there is space for; words past the fifth stay
 * as they were. Its result is 0.
 * Cost: 0.02 microseconds.
 */
uint32_t teluddru_store_read(const uint32_t *store, size_t store_length, uint32_t pack, uint32_t place,
                             uint32_t *entry, size_t entry_length);

/*
 * Empties a store: all entries end, and no share. Its result is TELUDDRU_READY or TELUDDRU_STORE_REFUSED.
 * Cost: 0.02 microseconds.
 */
uint32_t teluddru_store_empty(uint32_t *store, size_t store_length);

/*
 * Adds a name: the one that stands in the text at `start`, of `length` bytes. The name table is lent with all
 * its places, a pair of words each. The first `used` places hold the names in use; the others are free, and
 * what stands in them is not read. A name in use that has the same bytes is the answer; otherwise the name is
 * written to the first free place. No other word changes, and none if the call is refused; marks stay as
 * they are. Answers TELUDDRU_NAMED, the name's number, and 1 where it was added, so that one more is in use, or 0.
 * Refusals: those of the table check, with TELUDDRU_OVER_LIMIT for more than 128 names in use and
 * TELUDDRU_BREAKS_RULES for more than there are places or an odd number of words; TELUDDRU_BREAKS_RULES for a
 * name of 0 or more than 255 bytes or one that ends past the text; last TELUDDRU_NO_PLACE. Lend the other
 * calls the names in use alone: `used` pairs.
 * Cost: 0.5 microseconds; at the limits 3 to 7.
 */
uint32_t teluddru_add_name(const uint32_t *nodes, size_t nodes_length,
                           const uint32_t *children, size_t children_length,
                           const uint64_t *numbers, size_t numbers_length,
                           uint32_t *names, size_t names_length,
                           const uint8_t *strings, size_t strings_length,
                           const uint8_t *text, size_t text_length,
                           uint32_t used, uint32_t start, uint32_t length,
                           uint32_t *answer, size_t answer_length);

/*
 * Plans a sheet and writes its listing to the output. Returns the bytes written, or 0 with the output
 * zeroed if the listing doesn't fit; the output past the listing is 0. What is no sheet is answered
 * with a refusal.
 * Cost: 3 microseconds; at the limits 12 to 180, 250 long keys 390.
 */
size_t teluddru_plan_sheet(const uint8_t *sheet, size_t sheet_length, uint8_t *output, size_t output_length);

/* The former name of teluddru_plan_sheet, which ends with the next version. */
size_t plan_sheet(const uint8_t *sheet, size_t sheet_length, uint8_t *output, size_t output_length);

/*
 * Plans a sheet and lays its entries out on pages of TELUDDRU_PAGE_LINES lines: the entry's number from 1 in
 * 6 columns, to the right; its kind in 10 (bind, ignore, expression, literal, array, object, pair), the source
 * text of its node in 40 (of a pair its value side), that of its key node in 16, to the left. A longer text
 * ends in `~`, and a byte outside 32 to 126 is `?`. The last page is filled with blank lines; the buffer past
 * the pages is 0. Answers TELUDDRU_PAGES with the number of pages (0 for a plan without entries), or a refusal
 * with its place and counts; a refusal leaves the buffer as it was. The result and the answer's words are as
 * those of the calls over tables, so 0 is no refusal and nothing else.
 * Cost: 5 microseconds; at the limits 20 to 290, 250 long keys 410.
 */
uint32_t teluddru_pages(const uint8_t *sheet, size_t sheet_length, uint8_t *pages, size_t pages_length,
                        uint32_t *answer, size_t answer_length);

#ifdef __cplusplus
}
#endif

#endif
