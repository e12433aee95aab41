/* The part of teluddru_tables.h that says numbers in words, for people. */
#ifndef TELUDDRU_WORDS_H
#define TELUDDRU_WORDS_H

#include "teluddru_tables.h"

struct teluddru_words {
    uint32_t number;
    const char *words;
};

static inline const char *teluddru_words_for(uint32_t number, const struct teluddru_words *list, size_t length) {
    size_t i;
    for (i = 0; i < length; i++) {
        if (list[i].number == number) {
            return list[i].words;
        }
    }
    return "a number that this header doesn't know";
}

/* An answer's first number. */
static inline const char *teluddru_answer_words(uint32_t number) {
    static const struct teluddru_words list[] = {
        {TELUDDRU_PLANNED, "done, planned or a match"},
        {TELUDDRU_NO_MATCH, "no match"},
        {TELUDDRU_SOMETIMES, "a match for some of the numbers"},
        {TELUDDRU_OVER_LIMIT, "a table is over its limit"},
        {TELUDDRU_BREAKS_RULES, "the tables break a rule"},
        {TELUDDRU_TOO_DEEP, "the tables have more than 32 levels"},
        {TELUDDRU_EQUAL_NAMES, "two names have equal bytes"},
        {TELUDDRU_ROOT_OUTSIDE, "a root is no node"},
        {TELUDDRU_PLAN_TOO_LARGE, "the plan has more entries than there is space for"},
        {TELUDDRU_LAYOUT_BROKEN, "an operation, scheduler or scoping that isn't listed, or no sheet"},
        {TELUDDRU_COLON_EQUALS_REQUIRES_BINDABLE_LEFT, "the left of := has no name to bind and no _"},
        {TELUDDRU_ARRAY_SIZE_MISMATCH, "two arrays to be paired have different lengths"},
        {TELUDDRU_ARRAY_LENGTH_MISMATCH, "the value's array hasn't the length that the pattern asks for"},
        {TELUDDRU_OBJECT_LITERAL_KEYS_MISMATCH, "the value's object hasn't the keys that the pattern asks for"},
        {TELUDDRU_OBJECT_FIELD_COUNT_MISMATCH, "two objects to be paired differ in their number of fields"},
        {TELUDDRU_OBJECT_KEY_NOT_FOUND, "the left object hasn't this key of the right one"},
        {TELUDDRU_VARIABLE_ALREADY_DEFINED, "a name that is to be defined is defined already"},
        {TELUDDRU_INCOMPATIBLE_DESTRUCTURING_PATTERNS, "there is no way to plan these sides in this scope"},
        {TELUDDRU_LIST_TOO_SHORT, "the list of values is shorter than the names"},
        {TELUDDRU_PATTERN_NOT_SIMPLE, "a run's pattern has no set, other expression, computed or repeated key"},
        {TELUDDRU_NOT_A_VALUE, "the value, or a listed one, is no value"},
        {TELUDDRU_NAME_WITHOUT_VALUE, "a known name of the pattern has no value in the list"},
        {TELUDDRU_PAGE_BUFFER_TOO_SHORT, "the pages have more bytes than there is space for"},
        {TELUDDRU_RESERVED_NAME, "Rego v1 reserves input and data"},
        {TELUDDRU_RANGE_WRONG, "a lowest number is above its highest, or the ends are no numbers"},
        {TELUDDRU_NO_PLACE, "the name table has no place for the name"},
        {TELUDDRU_SHARES_REFUSED, "these shares make no store"},
        {TELUDDRU_STORE_REFUSED, "the store can't take the plan, or is none"},
        {TELUDDRU_VALUE_TOO_LARGE, "the example is larger than the space for it, or than a limit"},
        {TELUDDRU_NOT_A_BODY, "no lines of a rule body, or too few or many"},
        {TELUDDRU_NAME_NOT_READY, "a name has no value yet"},
    };
    return teluddru_words_for(number, TELUDDRU_LEND_ARRAY(list));
}

/* 0, a match and what is no match are no refusals. */
static inline int teluddru_is_refusal(uint32_t number) {
    return number > TELUDDRU_PLANNED && number < TELUDDRU_NO_MATCH;
}

/* The kind of a plan's entry. */
static inline const char *teluddru_entry_words(uint32_t kind) {
    static const struct teluddru_words list[] = {
        {TELUDDRU_ENTRY_BIND, "bind"},
        {TELUDDRU_ENTRY_IGNORE, "ignore"},
        {TELUDDRU_ENTRY_COMPARE_EXPRESSION, "compare"},
        {TELUDDRU_ENTRY_COMPARE_LITERAL, "compare literal"},
        {TELUDDRU_ENTRY_ARRAY, "array"},
        {TELUDDRU_ENTRY_OBJECT, "object"},
        {TELUDDRU_ENTRY_PAIR, "pair"},
    };
    return teluddru_words_for(kind, TELUDDRU_LEND_ARRAY(list));
}

/* The second number of teluddru_table_fault's answer. */
static inline const char *teluddru_rule_words(uint32_t rule) {
    static const struct teluddru_words list[] = {
        {TELUDDRU_RULES_KEPT, "the tables keep the rules"},
        {TELUDDRU_RULE_MOST_NODES, "at most 512 nodes"},
        {TELUDDRU_RULE_MOST_CHILDREN, "at most 512 child entries"},
        {TELUDDRU_RULE_MOST_NUMBERS, "at most 256 numbers"},
        {TELUDDRU_RULE_MOST_NAMES, "at most 128 names"},
        {TELUDDRU_RULE_MOST_STRING_BYTES, "at most 8,192 string bytes"},
        {TELUDDRU_RULE_MOST_TEXT_BYTES, "at most 16,384 bytes of text"},
        {TELUDDRU_RULE_NODE_WORDS, "nodes are five words each"},
        {TELUDDRU_RULE_NUMBER_WORDS, "numbers are two words each"},
        {TELUDDRU_RULE_NAME_WORDS, "names are two words each"},
        {TELUDDRU_RULE_NAME_RANGE, "a name has 1 to 255 bytes, which lie within the text"},
        {TELUDDRU_RULE_NUMBER, "a number's first word is 0 or 1; none is minus zero or below -9223372036854775808"},
        {TELUDDRU_RULE_CHILD_NUMBER, "a child entry, used or not, is the number of a node, from 1"},
        {TELUDDRU_RULE_KIND, "a node's kind is 1 to 10"},
        {TELUDDRU_RULE_SOURCE, "a node's start is at most its end, and its end at most the text's length"},
        {TELUDDRU_RULE_UNUSED_WORD, "a word that a node's kind doesn't use is 0"},
        {TELUDDRU_RULE_RANGE, "a node's first and count lie within what they point into; a bool's first is 0 or 1"},
        {TELUDDRU_RULE_NAME_TEXT, "a name node's text, from start to end, is its name's bytes"},
        {TELUDDRU_RULE_CHILD_BELOW_PARENT, "a child's number is below its parent's: children are put before their parent"},
        {TELUDDRU_RULE_CHILD_TWICE, "no node stands twice in the child list: a name that is written twice has two nodes"},
        {TELUDDRU_RULE_CHILD_SHARED, "no child entry serves two nodes"},
        {TELUDDRU_RULE_MARK, "a mark is at most 31"},
        {TELUDDRU_RULE_DEPTH, "at most 32 levels"},
        {TELUDDRU_RULE_EQUAL_NAMES, "no two names have equal bytes"},
    };
    return teluddru_words_for(rule, TELUDDRU_LEND_ARRAY(list));
}

/* The fourth number of teluddru_first_miss' answer. */
static inline const char *teluddru_miss_words(uint32_t why) {
    static const struct teluddru_words list[] = {
        {TELUDDRU_MISS_NAME, "the name's value differs"},
        {TELUDDRU_MISS_LITERAL, "the literal differs"},
        {TELUDDRU_MISS_NO_ARRAY, "no array"},
        {TELUDDRU_MISS_LENGTH, "an array of another length"},
        {TELUDDRU_MISS_NO_OBJECT, "no object"},
        {TELUDDRU_MISS_KEY_MISSING, "a key is missing"},
        {TELUDDRU_MISS_KEY_TOO_MANY, "a key is too many"},
    };
    return teluddru_words_for(why, TELUDDRU_LEND_ARRAY(list));
}

#endif
