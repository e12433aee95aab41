/*
 * Two rule packs keep their plans in one store: pack 1 the flush-sides rule, `[w, w]`, pack 2 a rule on a
 * panel's sizes, `[d, [h, _]]`. Each is planned, kept and read back; then a share is filled, the common part
 * used up by the other pack, and the store emptied.
 */
#include <stdio.h>

#include "teluddru.h"

#define LENGTH(array) (sizeof(array) / sizeof((array)[0]))
/* A lent range: its pointer and its length. */
#define LENT(array) (array), LENGTH(array)

enum { FLUSH_SIDES = 1, SIZES = 2, FLUSH_SIDES_RULE = 3, SIZES_RULE = 8 };

static const uint8_t text[] = "[w, w] [d, [h, _]]";

/* Kind, start, end, first, count. */
static const uint32_t nodes[] = {
    TELUDDRU_NODE_NAME,  1,  2,  1, 0, /* 1: w */
    TELUDDRU_NODE_NAME,  4,  5,  1, 0, /* 2: w */
    TELUDDRU_NODE_ARRAY, 0,  6,  0, 2, /* 3: [w, w] */
    TELUDDRU_NODE_NAME,  8,  9,  2, 0, /* 4: d */
    TELUDDRU_NODE_NAME,  12, 13, 3, 0, /* 5: h */
    TELUDDRU_NODE_NAME,  15, 16, 4, 0, /* 6: _ */
    TELUDDRU_NODE_ARRAY, 11, 17, 4, 2, /* 7: [h, _] */
    TELUDDRU_NODE_ARRAY, 7,  18, 2, 2, /* 8: [d, [h, _]] */
};
static const uint32_t children[] = {1, 2, 4, 7, 5, 6};
/* Start and length in the text: w, d, h, _. */
static const uint32_t names[] = {1, 1, 8, 1, 12, 1, 15, 1};
static const uint8_t marks[] = {0, 0, 0, 0};

static const char *const kinds[] = {"none", "bind", "ignore", "compare", "compare literal", "array", "object", "pair"};

static uint32_t store[TELUDDRU_STORE_WORDS];
static uint32_t plan[TELUDDRU_ENTRY_WORDS * LENGTH(nodes) / TELUDDRU_NODE_WORDS];
static uint32_t answer[TELUDDRU_ANSWER_WORDS];

/* Reads so many entries of a pack from a place on. */
static void read_entries(uint32_t pack, uint32_t place, uint32_t entries) {
    for (uint32_t i = 0; i < entries; i++) {
        uint32_t entry[TELUDDRU_ENTRY_WORDS];
        teluddru_store_read(LENT(store), pack, place + i, LENT(entry));
        const uint32_t *words = entry[1] == 0 ? NULL : nodes + TELUDDRU_NODE_WORDS * (entry[1] - 1);
        printf("  pack %u, place %u: %s", (unsigned)pack, (unsigned)(place + i), kinds[entry[0]]);
        if (words != NULL) {
            printf(" %.*s", (int)(words[2] - words[1]), (const char *)text + words[1]);
        }
        printf("\n");
    }
}

/* Offers the plan that is in the buffer; how many entries it has is the host's to say. */
static uint32_t keep(uint32_t pack, uint32_t entries) {
    uint32_t told = teluddru_store_keep(LENT(store), pack, LENT(plan), entries, LENT(answer));
    printf("pack %u, a plan of %u: ", (unsigned)pack, (unsigned)entries);
    if (told == TELUDDRU_KEPT) {
        printf("kept at place %u\n", (unsigned)answer[1]);
    } else {
        printf("refused with %u\n", (unsigned)told);
    }
    return told;
}

/* Plans a rule, keeps its plan and reads it back. */
static int plan_and_keep(uint32_t pack, uint32_t rule) {
    uint32_t told = teluddru_plan(LENT(nodes), LENT(children), NULL, 0, LENT(names), NULL, 0, text, LENGTH(text) - 1, LENT(marks),
                                  TELUDDRU_PATTERN, TELUDDRU_NO_SCHEDULER, TELUDDRU_RESPECT_PARENT, rule, 0, 0, TELUDDRU_REGO_V0,
                                  LENT(plan), LENT(answer));
    uint32_t entries = answer[3];
    if (told != TELUDDRU_PLANNED || keep(pack, entries) != TELUDDRU_KEPT) {
        return 1;
    }
    read_entries(pack, answer[1], entries);
    return 0;
}

/* As many plans of three entries as the store takes of pack 1, and how many entries it then has. */
static uint32_t fill(void) {
    uint32_t entries = 0;
    while (teluddru_store_keep(LENT(store), FLUSH_SIDES, LENT(plan), 3, LENT(answer)) == TELUDDRU_KEPT) {
        entries = answer[1] + 3;
    }
    return entries;
}

int main(void) {
    /* Nine entries for pack 1, 1,500 for pack 2; 27 are common. */
    const uint32_t shares[] = {9, 1500};
    const uint32_t too_large[] = {9, 1528};
    printf("shares of 1,537: refused with %u\n", (unsigned)teluddru_store_set_up(LENT(store), LENT(too_large)));
    if (teluddru_store_set_up(LENT(store), LENT(shares)) != TELUDDRU_READY || plan_and_keep(SIZES, SIZES_RULE) || plan_and_keep(FLUSH_SIDES, FLUSH_SIDES_RULE)) {
        return 1;
    }
    printf("pack 1 is filled: %u entries, its share and all that is common\n", (unsigned)fill());
    keep(FLUSH_SIDES, 1);
    printf("pack 2 still has its share\n");
    keep(SIZES, 5);
    keep(3, 1);
    printf("emptied: %u\n", (unsigned)teluddru_store_empty(LENT(store)));
    read_entries(FLUSH_SIDES, 0, 1);
    return plan_and_keep(FLUSH_SIDES, FLUSH_SIDES_RULE);
}
