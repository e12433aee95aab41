/*
 * A calliper gives 17 to 19 mm, and a side ought to have 18. Runs two rules on what was measured: `18`, the side has 18 mm, and
 * `[w, w]`, the flush-sides rule, on two sides. Whatever the true measure is, does the rule match: always, sometimes or never?
 */
#include <stdio.h>

#include "teluddru.h"

#define LENGTH(array) (sizeof(array) / sizeof((array)[0]))
/* A lent range: its pointer and its length. */
#define LENT(array) (array), LENGTH(array)
#define TABLES LENT(nodes), LENT(children), LENT(numbers), LENT(names), NULL, 0, text, LENGTH(text) - 1, LENT(marks)

enum { W = 1, EIGHTEEN = 1, FLUSH = 4, LEFT = 5, RIGHT = 6, SIDES = 7 };

static const uint8_t text[] = "18 [w, w] [18, 18]";

/* Kind, start, end, first, count. */
static const uint32_t nodes[] = {
    TELUDDRU_NODE_NUMBER, 0,  2,  0, 0, /* 1: 18, the rule */
    TELUDDRU_NODE_NAME,   4,  5,  W, 0, /* 2: w */
    TELUDDRU_NODE_NAME,   7,  8,  W, 0, /* 3: w */
    TELUDDRU_NODE_ARRAY,  3,  9,  0, 2, /* 4: [w, w] */
    TELUDDRU_NODE_NUMBER, 11, 13, 0, 0, /* 5: the left side */
    TELUDDRU_NODE_NUMBER, 15, 17, 0, 0, /* 6: the right side */
    TELUDDRU_NODE_ARRAY,  10, 18, 2, 2, /* 7: both sides */
};
static const uint32_t children[] = {2, 3, LEFT, RIGHT};
/* Below zero or not, size. */
static const uint64_t numbers[] = {0, 18};
/* Start and length in the text. */
static const uint32_t names[] = {4, 1};
/* The scope knows nothing of w. */
static const uint8_t marks[] = {0};

/* For each node two words, below zero or not and the size; those of LEFT and RIGHT are read, since these are the value's numbers. */
static uint64_t lowest[LENGTH(nodes) / TELUDDRU_NODE_WORDS * TELUDDRU_NUMBER_WORDS];
static uint64_t highest[LENGTH(lowest)];

static uint32_t plan[TELUDDRU_ENTRY_WORDS * LENGTH(nodes) / TELUDDRU_NODE_WORDS];
static uint32_t values[LENGTH(names) / TELUDDRU_NAME_WORDS];
static uint32_t answer[TELUDDRU_ANSWER_WORDS];

/* What the calliper gives for a side, in mm. */
static void measure(uint32_t side, uint64_t from, uint64_t to) {
    lowest[(side - 1) * TELUDDRU_NUMBER_WORDS + 1] = from;
    highest[(side - 1) * TELUDDRU_NUMBER_WORDS + 1] = to;
}

static void print_side(uint32_t side) {
    size_t size = (side - 1) * TELUDDRU_NUMBER_WORDS + 1;
    printf("%u..%u", (unsigned)lowest[size], (unsigned)highest[size]);
}

static void run_rule(uint32_t rule, uint32_t value) {
    values[W - 1] = 0;
    uint32_t told = teluddru_run_with_tolerance(TABLES, TELUDDRU_NO_SCHEDULER, TELUDDRU_RESPECT_PARENT, rule, value, LENT(values),
                                                LENT(lowest), LENT(highest), LENT(plan), LENT(answer));
    switch (told) {
    case TELUDDRU_ALWAYS:
        printf("always");
        break;
    case TELUDDRU_SOMETIMES:
        printf("sometimes");
        break;
    case TELUDDRU_NEVER:
        printf("never");
        break;
    default:
        printf("refused with %u", (unsigned)told);
    }
    if (values[W - 1] != 0) {
        printf(", w is ");
        print_side(values[W - 1]);
    }
    printf("\n");
}

static void run_on_left(uint64_t from, uint64_t to) {
    measure(LEFT, from, to);
    printf("18 on ");
    print_side(LEFT);
    printf(": ");
    run_rule(EIGHTEEN, LEFT);
}

static void run_on_both(uint64_t from, uint64_t to, uint64_t right_from, uint64_t right_to) {
    measure(LEFT, from, to);
    measure(RIGHT, right_from, right_to);
    printf("[w, w] on [");
    print_side(LEFT);
    printf(", ");
    print_side(RIGHT);
    printf("]: ");
    run_rule(FLUSH, SIDES);
}

int main(void) {
    run_on_left(17, 19);
    run_on_left(18, 18);
    run_on_left(16, 17);
    run_on_both(17, 19, 17, 19);
    run_on_both(18, 18, 18, 18);
    run_on_both(16, 17, 18, 19);
    run_on_both(19, 17, 18, 18);
    return 0;
}
