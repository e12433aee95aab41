/*
 * House rules and shop rules over one set of tables, each party with marks of its own. Either adds names to the
 * name table; what one binds is nothing to the other's plans.
 */
#include <stdio.h>

#include "teluddru.h"

#define LENGTH(array) (sizeof(array) / sizeof((array)[0]))
/* A lent range: its pointer and its length. */
#define LENT(array) (array), LENGTH(array)

enum { W = 1, RULE = 3, PLACES = 2 };

/* The rule, then words that the parties add as names. */
static const uint8_t text[] = "[w, w] depth w edge";

/* Kind, start, end, first, count. */
static const uint32_t nodes[] = {
    TELUDDRU_NODE_NAME,  1, 2, W, 0, /* 1: w */
    TELUDDRU_NODE_NAME,  4, 5, W, 0, /* 2: w */
    TELUDDRU_NODE_ARRAY, 0, 6, 0, 2, /* 3: [w, w] */
};
static const uint32_t children[] = {1, 2};
/* Start and length in the text: w, then a place that is free. */
static uint32_t names[PLACES * TELUDDRU_NAME_WORDS] = {1, 1};
static uint32_t used = 1;

/* The tables, with so many places of the name table. */
#define TABLES(places) \
    LENT(nodes), LENT(children), NULL, 0, names, (places) * TELUDDRU_NAME_WORDS, NULL, 0, text, LENGTH(text) - 1

struct party {
    const char *name;
    uint8_t marks[PLACES];
};
static struct party house = {"house", {0}};
static struct party shop = {"shop", {0}};

static uint32_t plan[TELUDDRU_ENTRY_WORDS * LENGTH(nodes) / TELUDDRU_NODE_WORDS];
static uint32_t answer[TELUDDRU_ANSWER_WORDS];

/* Adds the name at a range of the text. The call is lent all places. */
static void add_name(const struct party *party, uint32_t start, uint32_t length) {
    printf("%s adds %.*s: ", party->name, (int)length, (const char *)text + start);
    if (teluddru_add_name(TABLES(PLACES), used, start, length, LENT(answer)) != TELUDDRU_NAMED) {
        printf("refused: %u\n", (unsigned)answer[0]);
        return;
    }
    used += answer[2];
    printf("name %u, %s\n", (unsigned)answer[1], answer[2] ? "new" : "as it stands");
}

/* Plans [w, w] with a party's marks. The call is lent the names in use. */
static void plan_rule(const struct party *party) {
    teluddru_plan(TABLES(used), party->marks, used, TELUDDRU_PATTERN, TELUDDRU_NO_SCHEDULER, TELUDDRU_RESPECT_PARENT,
                  RULE, 0, 0, TELUDDRU_REGO_V0, LENT(plan), LENT(answer));
    printf("%s: the first w is %s\n", party->name, plan[TELUDDRU_ENTRY_WORDS] == TELUDDRU_ENTRY_BIND ? "bound" : "compared");
}

int main(void) {
    plan_rule(&house);
    add_name(&shop, 7, 5);
    add_name(&house, 13, 1);
    /* The shop binds w, in its own marks. */
    shop.marks[W - 1] = TELUDDRU_MARK_BOUND | TELUDDRU_MARK_BOUND_HERE;
    plan_rule(&shop);
    plan_rule(&house);
    add_name(&house, 15, 4);
    add_name(&shop, 7, 5);
    return 0;
}
