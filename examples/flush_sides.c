/*
 * The flush-sides rule, `[w, w]`: left and right panel have one thickness, w. Plans it from tables, reads
 * the plan, and runs it on panels of 18 mm and 16 mm and on two of 18 mm.
 */
#include <stdio.h>

#include "teluddru.h"

#define LENGTH(array) (sizeof(array) / sizeof((array)[0]))
/* A lent range: its pointer and its length. */
#define LENT(array) (array), LENGTH(array)
#define TABLES LENT(nodes), LENT(children), LENT(numbers), LENT(names), NULL, 0, text, LENGTH(text) - 1, LENT(marks)

enum { W = 1, RULE = 3, DIFFERENT = 6, EQUAL = 9 };

static const uint8_t text[] = "[w, w] [18, 16] [18, 18]";

/* Kind, start, end, first, count. */
static const uint32_t nodes[] = {
    TELUDDRU_NODE_NAME,   1,  2,  W, 0, /* 1: w */
    TELUDDRU_NODE_NAME,   4,  5,  W, 0, /* 2: w */
    TELUDDRU_NODE_ARRAY,  0,  6,  0, 2, /* 3: [w, w] */
    TELUDDRU_NODE_NUMBER, 8,  10, 0, 0, /* 4: 18 */
    TELUDDRU_NODE_NUMBER, 12, 14, 1, 0, /* 5: 16 */
    TELUDDRU_NODE_ARRAY,  7,  15, 2, 2, /* 6: [18, 16] */
    TELUDDRU_NODE_NUMBER, 17, 19, 0, 0, /* 7: 18 */
    TELUDDRU_NODE_NUMBER, 21, 23, 0, 0, /* 8: 18 */
    TELUDDRU_NODE_ARRAY,  16, 24, 4, 2, /* 9: [18, 18] */
};
static const uint32_t children[] = {1, 2, 4, 5, 7, 8};
/* Below zero or not, size. */
static const uint64_t numbers[] = {0, 18, 0, 16};
/* Start and length in the text. */
static const uint32_t names[] = {1, 1};
/* The scope knows nothing of w. */
static const uint8_t marks[] = {0};

static const char *const kinds[] = {"", "bind", "ignore", "compare", "compare literal", "array", "object", "pair"};

static uint32_t plan[TELUDDRU_ENTRY_WORDS * LENGTH(nodes) / TELUDDRU_NODE_WORDS];
static uint32_t values[LENGTH(names) / TELUDDRU_NAME_WORDS];
static uint32_t answer[TELUDDRU_ANSWER_WORDS];

/* The text of a node. */
static void print_node(uint32_t node) {
    const uint32_t *words = nodes + TELUDDRU_NODE_WORDS * (node - 1);
    printf("%.*s", (int)(words[2] - words[1]), (const char *)text + words[1]);
}

static int plan_rule(void) {
    uint32_t told = teluddru_plan(TABLES, TELUDDRU_PATTERN, TELUDDRU_NO_SCHEDULER, TELUDDRU_RESPECT_PARENT, RULE, 0, 0, TELUDDRU_REGO_V1, LENT(plan), LENT(answer));
    if (told != TELUDDRU_PLANNED) {
        printf("refused: %u\n", (unsigned)told);
        return 1;
    }
    printf("a plan of %u entries\n", (unsigned)answer[3]);
    for (uint32_t i = 0; i < answer[3]; i++) {
        const uint32_t *entry = plan + TELUDDRU_ENTRY_WORDS * i;
        printf("%s ", kinds[entry[0]]);
        print_node(entry[1]);
        if (entry[4] != 0) {
            printf(", item %u", (unsigned)entry[4]);
        }
        printf("\n");
    }
    return 0;
}

/* With the two panels as its right side, the rule is an `=`; the left side binds. */
static int plan_equals(void) {
    uint32_t told = teluddru_plan(TABLES, TELUDDRU_EQUALS, TELUDDRU_NO_SCHEDULER, TELUDDRU_RESPECT_PARENT, RULE, DIFFERENT, 0, TELUDDRU_REGO_V0, LENT(plan), LENT(answer));
    print_node(RULE);
    printf(" = ");
    print_node(DIFFERENT);
    printf(": %s\n", answer[1] == TELUDDRU_FORM_BIND_LEFT ? "bind left" : "another form");
    return told != TELUDDRU_PLANNED;
}

static int report_names(void) {
    uint32_t told = teluddru_names_report(TABLES, TELUDDRU_NO_SCHEDULER, TELUDDRU_RESPECT_PARENT, RULE, LENT(values), LENT(answer));
    printf("w is %s\n", values[W - 1] == TELUDDRU_NAME_BOUND ? "bound" : "not bound");
    return told != TELUDDRU_REPORTED;
}

static int run_rule(uint32_t value) {
    values[W - 1] = 0;
    uint32_t told = teluddru_run(TABLES, TELUDDRU_NO_SCHEDULER, TELUDDRU_RESPECT_PARENT, RULE, value, LENT(values), LENT(plan), LENT(answer));
    print_node(RULE);
    printf(" on ");
    print_node(value);
    printf(": %s", told == TELUDDRU_MATCH ? "match, w is " : told == TELUDDRU_NO_MATCH ? "no match" : "refused");
    if (told == TELUDDRU_MATCH) {
        print_node(values[W - 1]);
    }
    printf("\n");
    return told != TELUDDRU_MATCH && told != TELUDDRU_NO_MATCH;
}

/* A number that isn't listed is refused, and the plan is zeros. */
static int ask_unlisted(void) {
    uint32_t told = teluddru_plan(TABLES, TELUDDRU_PARAMETER + 1, TELUDDRU_NO_SCHEDULER, TELUDDRU_RESPECT_PARENT, RULE, 0, 0, TELUDDRU_REGO_V0, LENT(plan), LENT(answer));
    printf("operation 7: refused with %u\n", (unsigned)told);
    return told != TELUDDRU_LAYOUT_BROKEN || answer[0] != told || plan[0] != 0;
}

int main(void) {
    return plan_rule() || plan_equals() || report_names() || run_rule(DIFFERENT) || run_rule(EQUAL) || ask_unlisted();
}
