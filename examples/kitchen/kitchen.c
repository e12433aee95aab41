/*
 * A kitchen of 300 cabinets and one rule: both sides of a cabinet have one thickness, w. The rule is read once; each
 * cabinet is put behind it, run, and taken off again. Where one doesn't match is told by its path. It has to take less
 * than 2 ms in all.
 */
#include <stdio.h>
#include <time.h>

#include "teluddru_tables.h"

#define RULE "{\"cabinet\": _, \"sides\": [{\"thickness\": w}, {\"thickness\": w}]}"

/* In milliseconds. */
#define BAR 2.0

enum { CABINETS = 300, ROUNDS = 20, MOST_ROUNDS = 5000 };

struct cabinet {
    int number, left, right; /* the sides' thickness */
};

static struct cabinet kitchen[CABINETS];
static struct teluddru_tables t;
static struct teluddru_reading rule;
static struct teluddru_lengths rule_alone;
static uint32_t plan[TELUDDRU_MOST_NODES * TELUDDRU_ENTRY_WORDS];
static uint32_t values[TELUDDRU_MOST_NAMES];
static uint32_t answer[TELUDDRU_ANSWER_WORDS];

static void make_kitchen(void) {
    for (int i = 0; i < CABINETS; i++) {
        kitchen[i].number = i + 1;
        kitchen[i].left = 18;
        kitchen[i].right = i % 60 == 7 ? 16 : 18;
    }
}

static uint32_t put_side(int thickness) {
    uint32_t field[2];
    field[0] = teluddru_put_string(&t, TELUDDRU_TEXT("thickness"));
    field[1] = teluddru_put_int(&t, thickness);
    return teluddru_put_list(&t, TELUDDRU_NODE_OBJECT, field, 2);
}

/* {"cabinet": 8, "sides": [{"thickness": 18}, {"thickness": 16}]} */
static uint32_t put_cabinet(const struct cabinet *cabinet) {
    uint32_t sides[2], fields[4];
    sides[0] = put_side(cabinet->left);
    sides[1] = put_side(cabinet->right);
    fields[0] = teluddru_put_string(&t, TELUDDRU_TEXT("cabinet"));
    fields[1] = teluddru_put_int(&t, cabinet->number);
    fields[2] = teluddru_put_string(&t, TELUDDRU_TEXT("sides"));
    fields[3] = teluddru_put_list(&t, TELUDDRU_NODE_ARRAY, sides, 2);
    return teluddru_put_list(&t, TELUDDRU_NODE_OBJECT, fields, 4);
}

/* The way from the cabinet to a node of it, as sides[1].thickness; its steps. */
static int print_path(uint32_t node) {
    size_t place;
    uint32_t parent = teluddru_parent_of(&t, node, &place);
    if (parent == 0) {
        return 0;
    }
    int steps = print_path(parent);
    const uint32_t *words = teluddru_words_of(&t, parent);
    if (words[0] == TELUDDRU_NODE_ARRAY) {
        printf("[%u]", (unsigned)place);
    } else {
        const uint32_t *key = teluddru_words_of(&t, t.children[words[3] + place / 2 * 2]);
        printf("%s%.*s", steps > 0 ? "." : "", (int)key[4], (const char *)t.strings + key[3]);
    }
    return steps + 1;
}

static void print_miss(const struct cabinet *cabinet) {
    const uint32_t *asked = teluddru_words_of(&t, answer[2]);
    printf("cabinet %d: ", cabinet->number);
    print_path(answer[1]);
    printf(" is not %.*s\n", (int)(asked[2] - asked[1]), (const char *)t.text + asked[1]);
}

/* Whether a cabinet matches the rule. The values are nodes of the tables, so those of the last cabinet are cleared. */
static int check_cabinet(const struct cabinet *cabinet, int tell) {
    uint32_t value = put_cabinet(cabinet);
    memset(values, 0, sizeof values);
    uint32_t told = teluddru_run(TELUDDRU_LEND(&t), TELUDDRU_LEND_MARKS(&t), TELUDDRU_NO_SCHEDULER,
                                 TELUDDRU_RESPECT_PARENT, rule.first, value, TELUDDRU_LEND_ARRAY(values),
                                 TELUDDRU_LEND_ARRAY(plan), TELUDDRU_LEND_ARRAY(answer));
    if (told == TELUDDRU_NO_MATCH) {
        teluddru_first_miss(TELUDDRU_LEND(&t), TELUDDRU_LEND_MARKS(&t), TELUDDRU_NO_SCHEDULER, TELUDDRU_RESPECT_PARENT,
                            rule.first, value, TELUDDRU_LEND_ARRAY(values), TELUDDRU_LEND_ARRAY(answer));
    }
    if (tell && told == TELUDDRU_NO_MATCH) {
        print_miss(cabinet);
    } else if (teluddru_is_refusal(told)) {
        printf("cabinet %d is refused: %s\n", cabinet->number, teluddru_answer_words(told));
    }
    t.used = rule_alone;
    return told == TELUDDRU_MATCH;
}

static int check_kitchen(int tell) {
    int matches = 0;
    for (int i = 0; i < CABINETS; i++) {
        matches += check_cabinet(&kitchen[i], tell);
    }
    return matches;
}

/*
 * The fastest of some rounds, in milliseconds of the processor; of more where none meets the bar, since other work on
 * the machine makes a round slower and never faster.
 */
static double time_kitchen(void) {
    double fastest = 1000;
    for (int i = 0; i < ROUNDS || (i < MOST_ROUNDS && fastest > BAR); i++) {
        clock_t start = clock();
        check_kitchen(0);
        double taken = 1000.0 * (double)(clock() - start) / CLOCKS_PER_SEC;
        fastest = taken < fastest ? taken : fastest;
    }
    return fastest;
}

int main(void) {
    rule = teluddru_read_rule(&t, TELUDDRU_TEXT(RULE));
    rule_alone = t.used;
    if (rule.why != NULL) {
        printf("the rule, at byte %u: %s\n", (unsigned)rule.place, rule.why);
        return 1;
    }
    make_kitchen();
    printf("%d of %d cabinets match\n", check_kitchen(1), CABINETS);
    double taken = time_kitchen();
    fprintf(stderr, "%d cabinets in %.2f ms\n", CABINETS, taken);
    return taken > BAR;
}
