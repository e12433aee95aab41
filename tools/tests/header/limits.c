/*
 * The edges of teluddru_tables.h, in C99 and in C++11: what has no space gives 0 and puts nothing, and the tables keep
 * their rules throughout. Prints "kept", or the first line that isn't.
 */
#include <stdio.h>
#include <stdlib.h>

#include "teluddru_tables.h"

#define CHECK(fact) check(fact, __LINE__)

static struct teluddru_tables t;
static char bytes[TELUDDRU_MOST_TEXT_BYTES + 1];

static void check(int fact, int line) {
    if (!fact) {
        printf("line %d\n", line);
        exit(1);
    }
}

/* The call's table check: all is well where the root is what it refuses. */
static int is_sound(void) {
    uint32_t plan[TELUDDRU_ENTRY_WORDS], answer[TELUDDRU_ANSWER_WORDS];
    return teluddru_plan(TELUDDRU_LEND(&t), TELUDDRU_LEND_MARKS(&t), TELUDDRU_PATTERN, TELUDDRU_NO_SCHEDULER,
                         TELUDDRU_RESPECT_PARENT, 0, 0, 0, TELUDDRU_REGO_V0, TELUDDRU_LEND_ARRAY(plan),
                         TELUDDRU_LEND_ARRAY(answer)) == TELUDDRU_ROOT_OUTSIDE;
}

/* Nothing was put, and the tables are sound. */
static int is_refused(uint32_t node, struct teluddru_lengths before) {
    return node == 0 && memcmp(&before, &t.used, sizeof before) == 0 && is_sound();
}

static void fill_nodes(void) {
    struct teluddru_lengths full;
    uint32_t one = 1, i;
    teluddru_clear(&t);
    for (i = 1; i <= TELUDDRU_MOST_NODES; i++) {
        CHECK(teluddru_put_null(&t) == i);
    }
    full = t.used;
    CHECK(is_sound());
    CHECK(is_refused(teluddru_put_null(&t), full));
    CHECK(is_refused(teluddru_put_other(&t), full));
    CHECK(is_refused(teluddru_put_bool(&t, 1), full));
    CHECK(is_refused(teluddru_put_int(&t, 1), full));
    CHECK(is_refused(teluddru_put_string(&t, TELUDDRU_TEXT("a")), full));
    CHECK(is_refused(teluddru_put_name(&t, TELUDDRU_TEXT("w")), full));
    CHECK(is_refused(teluddru_put_list(&t, TELUDDRU_NODE_ARRAY, &one, 1), full));
    CHECK(is_refused(teluddru_read_value(&t, TELUDDRU_TEXT("7")).first, full));
}

static void fill_numbers(void) {
    uint32_t i;
    teluddru_clear(&t);
    CHECK(is_refused(teluddru_put_number(&t, 1, 0), t.used));
    CHECK(is_refused(teluddru_put_number(&t, 1, ((uint64_t)1 << 63) + 1), t.used));
    for (i = 1; i <= TELUDDRU_MOST_NUMBERS; i++) {
        CHECK(teluddru_put_int(&t, i % 2 ? INT64_MIN : INT64_MAX) == i);
    }
    CHECK(t.numbers[0] == 1 && t.numbers[1] == (uint64_t)1 << 63 && t.numbers[2] == 0);
    CHECK(is_sound());
    CHECK(is_refused(teluddru_put_number(&t, 0, UINT64_MAX), t.used));
    CHECK(is_refused(teluddru_read_value(&t, TELUDDRU_TEXT("[7]")).first, t.used));
}

static void fill_strings(void) {
    teluddru_clear(&t);
    CHECK(teluddru_put_string(&t, NULL, 0) == 1);
    CHECK(is_refused(teluddru_put_string(&t, bytes, TELUDDRU_MOST_STRING_BYTES + 1), t.used));
    CHECK(teluddru_put_string(&t, bytes, TELUDDRU_MOST_STRING_BYTES) == 2);
    CHECK(is_sound());
    CHECK(is_refused(teluddru_put_string(&t, "a", 1), t.used));
    CHECK(is_refused(teluddru_read_value(&t, TELUDDRU_TEXT("\"\\u00e9\"")).first, t.used));
    CHECK(teluddru_read_value(&t, TELUDDRU_TEXT("\"\"")).first == 3);
}

static void fill_children(void) {
    uint32_t items[TELUDDRU_MOST_CHILDREN], i;
    struct teluddru_lengths nodes_alone;
    teluddru_clear(&t);
    for (i = 0; i < TELUDDRU_MOST_CHILDREN - 1; i++) {
        items[i] = teluddru_put_null(&t);
    }
    nodes_alone = t.used;
    items[i] = 0;
    CHECK(is_refused(teluddru_put_list(&t, TELUDDRU_NODE_ARRAY, items, i + 1), nodes_alone));
    items[i] = TELUDDRU_MOST_NODES;
    CHECK(is_refused(teluddru_put_list(&t, TELUDDRU_NODE_SET, items, i + 1), nodes_alone));
    CHECK(is_refused(teluddru_put_list(&t, TELUDDRU_NODE_OBJECT, items, i), nodes_alone));
    CHECK(teluddru_put_list(&t, TELUDDRU_NODE_SET, NULL, 0) == TELUDDRU_MOST_NODES);
    t.used = nodes_alone;
    CHECK(teluddru_put_list(&t, TELUDDRU_NODE_OBJECT, items, i - 1) == TELUDDRU_MOST_NODES);
    CHECK(teluddru_words_of(&t, TELUDDRU_MOST_NODES)[4] == (i - 1) / 2);
    CHECK(is_sound());
}

static void fill_names(void) {
    char name[] = "a0";
    uint32_t i;
    teluddru_clear(&t);
    CHECK(is_refused(teluddru_put_name(&t, NULL, 0), t.used));
    CHECK(is_refused(teluddru_put_name(&t, bytes, TELUDDRU_MOST_NAME_BYTES + 1), t.used));
    CHECK(teluddru_put_name(&t, bytes, TELUDDRU_MOST_NAME_BYTES) == 1);
    for (i = 1; i < TELUDDRU_MOST_NAMES; i++) {
        name[0] = (char)('a' + i / 10);
        name[1] = (char)('0' + i % 10);
        CHECK(teluddru_put_name(&t, name, 2) == i + 1 && teluddru_name_number(&t, name, 2) == i + 1);
    }
    CHECK(teluddru_mark_name(&t, name, 2, TELUDDRU_MARK_BOUND) == i && t.marks[i - 1] == TELUDDRU_MARK_BOUND);
    CHECK(teluddru_mark_name(&t, "w", 1, TELUDDRU_MARK_BOUND) == 0 && t.marks[0] == 0);
    CHECK(is_refused(teluddru_put_name(&t, "w", 1), t.used));
    CHECK(is_refused(teluddru_read_rule(&t, TELUDDRU_TEXT("[w]")).first, t.used));
    CHECK(teluddru_put_name(&t, name, 2) == i + 1);
    CHECK(is_sound());
}

static void fill_text(void) {
    teluddru_clear(&t);
    CHECK(is_refused(teluddru_read_value(&t, bytes, sizeof bytes).first, t.used));
    CHECK(teluddru_read_rule(&t, "[w]", 3).first == 2);
    CHECK(is_refused(teluddru_read_value(&t, bytes, sizeof t.text - 3).first, t.used));
    memset(bytes, ' ', sizeof bytes);
    bytes[0] = '7';
    CHECK(teluddru_read_value(&t, bytes, sizeof t.text - 4).first == 3);
    CHECK(is_refused(teluddru_read_value(&t, NULL, 0).first, t.used));
    CHECK(is_refused(teluddru_put_name(&t, "v", 1), t.used));
    CHECK(teluddru_put_name(&t, "w", 1) == 4);
    CHECK(is_sound());
}

/* A part is taken off again, and a name that came with it. */
static void go_back(void) {
    struct teluddru_lengths rule_alone;
    struct teluddru_reading rule;
    size_t place;
    teluddru_clear(&t);
    rule = teluddru_read_rule(&t, TELUDDRU_TEXT("some k, [w, {\"a\": [w]}] in xs"));
    rule_alone = t.used;
    CHECK(rule.operation == TELUDDRU_SOME_IN && rule.key == 1 && rule.first == 7 && rule.second == 8);
    CHECK(teluddru_parent_of(&t, 4, &place) == 5 && place == 0);
    CHECK(teluddru_parent_of(&t, 5, &place) == 6 && place == 1);
    CHECK(teluddru_parent_of(&t, 6, &place) == 7 && place == 1);
    CHECK(teluddru_parent_of(&t, 7, &place) == 0 && teluddru_parent_of(&t, 8, &place) == 0);
    CHECK(teluddru_put_name(&t, TELUDDRU_TEXT("v")) == 9);
    CHECK(teluddru_mark_name(&t, TELUDDRU_TEXT("v"), TELUDDRU_MARK_LOCAL) == 4);
    t.used = rule_alone;
    CHECK(teluddru_name_number(&t, TELUDDRU_TEXT("v")) == 0 && is_sound());
    CHECK(teluddru_put_name(&t, TELUDDRU_TEXT("u")) == 9 && t.marks[3] == 0);
    CHECK(is_sound());
}

int main(void) {
    memset(bytes, 'n', sizeof bytes);
    fill_nodes();
    fill_numbers();
    fill_strings();
    fill_children();
    fill_names();
    fill_text();
    go_back();
    printf("kept\n");
    return 0;
}
