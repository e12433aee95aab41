/*
 * Three rules for the sides and the back of a cabinet, in mm: `[w, w, b]`, the house rule, has flush sides; `[18, t, _]` and
 * `[18, 16, 3]` are rules of two shops. Is there a cabinet that two of them both catch? An example is written right behind the
 * tables, so that they hold it from then on, and both rules are run on it.
 */
#include <stdio.h>

#include "teluddru.h"

#define LENGTH(array) (sizeof(array) / sizeof((array)[0]))
/* A lent range: its pointer and its length. */
#define LENT(array) (array), LENGTH(array)
/* The tables, with so many nodes and child entries. */
#define TABLES(node_count, child_count) \
    nodes, (node_count) * TELUDDRU_NODE_WORDS, children, (child_count), LENT(numbers), LENT(names), strings, (size_t)0, text, LENGTH(text) - 1
/* A side: nothing is known of its names, and none has a value. */
#define SIDE(rule) LENT(marks), TELUDDRU_NO_SCHEDULER, TELUDDRU_RESPECT_PARENT, (rule), LENT(no_values)

enum { W = 1, B = 2, T = 3, UNDERSCORE = 4, NAMES = 4 };
enum { EIGHTEEN = 0, SIXTEEN = 1, THREE = 2 };
enum { HOUSE = 4, SHOP = 8, OTHER_SHOP = 12, NODES = 12, CHILDREN = 9 };

static const uint8_t text[] = "[w, w, b] [18, t, _] [18, 16, 3]";
/* There are no strings; a pointer has to point somewhere all the same. */
static const uint8_t strings[1] = {0};

/* Kind, start, end, first, count. There is space for an example behind the rules. */
static uint32_t nodes[TELUDDRU_MOST_NODES * TELUDDRU_NODE_WORDS] = {
    TELUDDRU_NODE_NAME,   1,  2,  W,          0, /* 1: w */
    TELUDDRU_NODE_NAME,   4,  5,  W,          0, /* 2: w */
    TELUDDRU_NODE_NAME,   7,  8,  B,          0, /* 3: b */
    TELUDDRU_NODE_ARRAY,  0,  9,  0,          3, /* 4: [w, w, b] */
    TELUDDRU_NODE_NUMBER, 11, 13, EIGHTEEN,   0, /* 5: 18 */
    TELUDDRU_NODE_NAME,   15, 16, T,          0, /* 6: t */
    TELUDDRU_NODE_NAME,   18, 19, UNDERSCORE, 0, /* 7: _ */
    TELUDDRU_NODE_ARRAY,  10, 20, 3,          3, /* 8: [18, t, _] */
    TELUDDRU_NODE_NUMBER, 22, 24, EIGHTEEN,   0, /* 9: 18 */
    TELUDDRU_NODE_NUMBER, 26, 28, SIXTEEN,    0, /* 10: 16 */
    TELUDDRU_NODE_NUMBER, 30, 31, THREE,      0, /* 11: 3 */
    TELUDDRU_NODE_ARRAY,  21, 32, 6,          3, /* 12: [18, 16, 3] */
};
static uint32_t children[TELUDDRU_MOST_CHILDREN] = {1, 2, 3, 5, 6, 7, 9, 10, 11};
/* Below zero or not, size. */
static const uint64_t numbers[] = {0, 18, 0, 16, 0, 3};
/* Start and length in the text. */
static const uint32_t names[] = {1, 1, 7, 1, 15, 1, 18, 1};
static const uint8_t marks[NAMES];
static const uint32_t no_values[NAMES];

static uint32_t values[NAMES];
static uint32_t plan[TELUDDRU_ENTRY_WORDS * NODES];
static uint32_t answer[TELUDDRU_ANSWER_WORDS];

static const uint32_t *node_of(uint32_t number) {
    return nodes + (number - 1) * TELUDDRU_NODE_WORDS;
}

/* The text of a rule or of a name. */
static void print_text(uint32_t start, uint32_t length) {
    printf("%.*s", (int)length, (const char *)text + start);
}

static void print_rule(uint32_t rule) {
    print_text(node_of(rule)[1], node_of(rule)[2] - node_of(rule)[1]);
}

/* A value of these tables: a number, null, or an array of such. The nodes of an example have no text. */
static void print_value(uint32_t value) {
    const uint32_t *node = node_of(value);
    if (node[0] == TELUDDRU_NODE_NUMBER) {
        printf("%u", (unsigned)numbers[node[3] * TELUDDRU_NUMBER_WORDS + 1]);
    } else if (node[0] == TELUDDRU_NODE_NULL) {
        printf("null");
    } else {
        printf("[");
        for (uint32_t item = 0; item < node[4]; item++) {
            printf("%s", item == 0 ? "" : ", ");
            print_value(children[node[3] + item]);
        }
        printf("]");
    }
}

static void run_rule(uint32_t rule, uint32_t value, size_t node_count, size_t child_count) {
    for (size_t name = 0; name < NAMES; name++) {
        values[name] = 0;
    }
    uint32_t told = teluddru_run(TABLES(node_count, child_count), LENT(marks), TELUDDRU_NO_SCHEDULER, TELUDDRU_RESPECT_PARENT, rule, value,
                                 LENT(values), LENT(plan), LENT(answer));
    print_rule(rule);
    printf(" on it: %s", told == TELUDDRU_MATCH ? "match" : "no match");
    for (size_t name = 0; name < NAMES; name++) {
        if (values[name] != 0) {
            printf(", ");
            print_text(names[name * TELUDDRU_NAME_WORDS], names[name * TELUDDRU_NAME_WORDS + 1]);
            printf(" is ");
            print_value(values[name]);
        }
    }
    printf("\n");
}

static void try_rules(uint32_t first, uint32_t second) {
    print_rule(first);
    printf(" and ");
    print_rule(second);
    /* The lists for the example begin where the tables end, and overlap nothing that is read. */
    uint32_t told = teluddru_common_example(TABLES(NODES, CHILDREN), SIDE(first), SIDE(second), nodes + NODES * TELUDDRU_NODE_WORDS,
                                            LENGTH(nodes) - NODES * TELUDDRU_NODE_WORDS, children + CHILDREN, LENGTH(children) - CHILDREN,
                                            LENT(answer));
    switch (told) {
    case TELUDDRU_EXAMPLE: {
        uint32_t value = answer[1];
        size_t node_count = NODES + answer[2], child_count = CHILDREN + answer[3];
        printf(": both match ");
        print_value(value);
        printf("\n");
        run_rule(first, value, node_count, child_count);
        run_rule(second, value, node_count, child_count);
        break;
    }
    case TELUDDRU_NO_EXAMPLE:
        printf(": no value matches both\n");
        break;
    default:
        printf(": refused with %u\n", (unsigned)told);
    }
}

int main(void) {
    try_rules(HOUSE, SHOP);
    try_rules(SHOP, OTHER_SHOP);
    try_rules(HOUSE, OTHER_SHOP);
    return 0;
}
