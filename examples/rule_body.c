/*
 * A rule body of three lines: one binds w, one is planned in pairs, of which the second reads what the first binds, and one reads
 * what both lines bind. Its first two lines alone, then all of it; the last two lines in the wrong order, where y has no value
 * yet; the same with y known; words that are no body.
 */
#include <stdio.h>

#include "teluddru.h"

#define LENGTH(array) (sizeof(array) / sizeof((array)[0]))
/* A lent range: its pointer and its length. */
#define LENT(array) (array), LENGTH(array)

enum { W = 1, X, Y, Z };

static const char text[] = "w := 18\n[x, [x]] = [w, y]\nz := [y, w]";
static const uint64_t numbers[] = {0, 18};

/* Kind, start, end, first, count. */
static const uint32_t nodes[] = {
    TELUDDRU_NODE_NAME,   0,  1,  W, 0, /* 1: w */
    TELUDDRU_NODE_NUMBER, 5,  7,  0, 0, /* 2: 18 */
    TELUDDRU_NODE_NAME,   9,  10, X, 0, /* 3: x */
    TELUDDRU_NODE_NAME,   13, 14, X, 0, /* 4: x */
    TELUDDRU_NODE_ARRAY,  12, 15, 0, 1, /* 5: [x] */
    TELUDDRU_NODE_ARRAY,  8,  16, 1, 2, /* 6: [x, [x]] */
    TELUDDRU_NODE_NAME,   20, 21, W, 0, /* 7: w */
    TELUDDRU_NODE_NAME,   23, 24, Y, 0, /* 8: y */
    TELUDDRU_NODE_ARRAY,  19, 25, 3, 2, /* 9: [w, y] */
    TELUDDRU_NODE_NAME,   26, 27, Z, 0, /* 10: z */
    TELUDDRU_NODE_NAME,   32, 33, Y, 0, /* 11: y */
    TELUDDRU_NODE_NAME,   35, 36, W, 0, /* 12: w */
    TELUDDRU_NODE_ARRAY,  31, 37, 5, 2, /* 13: [y, w] */
};
static const uint32_t children[] = {4, 3, 5, 7, 8, 11, 12};
/* Start and length in the text. */
static const uint32_t names[] = {0, 1, 9, 1, 23, 1, 26, 1};

/* An operation and its roots: left, right, and no some-in key. */
#define LINE_1 TELUDDRU_COLON_EQUALS, 1, 2, 0
#define LINE_2 TELUDDRU_EQUALS, 6, 9, 0
#define LINE_3 TELUDDRU_COLON_EQUALS, 10, 13, 0
static const uint32_t body[] = {LINE_1, LINE_2, LINE_3};
static const uint32_t wrong_order[] = {LINE_1, LINE_3, LINE_2};

static const char *const kinds[] = {"", "bind", "ignore", "compare", "compare literal", "array", "object", "pair, value side"};

/* The source text of a node. */
static void print_node(uint32_t node) {
    const uint32_t *words = nodes + (node - 1) * TELUDDRU_NODE_WORDS;
    printf("%.*s", (int)(words[2] - words[1]), text + words[1]);
}

/* Plans lines of four words each, with the marks of y at the start; the other names have none. */
static void plan(const char *title, const uint32_t *lines, size_t words, uint8_t marks_of_y) {
    uint8_t marks[] = {0, 0, marks_of_y, 0};
    uint32_t entries[8 * TELUDDRU_ENTRY_WORDS], answer[TELUDDRU_BODY_ANSWER_WORDS];
    uint32_t told = teluddru_plan_body(LENT(nodes), LENT(children), LENT(numbers), LENT(names), NULL, 0, (const uint8_t *)text,
                                       sizeof text - 1, LENT(marks), TELUDDRU_NO_SCHEDULER, lines, words, LENT(entries), LENT(answer));
    printf("%s: ", title);
    if (told == TELUDDRU_NAME_NOT_READY) {
        printf("refused, line %u reads ", (unsigned)answer[4]);
        print_node(answer[1]);
        printf(", which has no value yet\n");
        return;
    }
    if (told != TELUDDRU_PLANNED) {
        printf("refused with %u, line %u\n", (unsigned)told, (unsigned)answer[4]);
        return;
    }
    printf("planned, and these names have values:");
    for (size_t name = 0; name < LENGTH(marks); name++) {
        if (marks[name] & TELUDDRU_MARK_BOUND) {
            printf(" %c", text[names[name * TELUDDRU_NAME_WORDS]]);
        }
    }
    printf("\n");
    for (uint32_t entry = 0; entry < answer[3]; entry++) {
        printf("    %s ", kinds[entries[entry * TELUDDRU_ENTRY_WORDS]]);
        print_node(entries[entry * TELUDDRU_ENTRY_WORDS + 1]);
        printf("\n");
    }
}

int main(void) {
    plan("two lines", body, 2 * TELUDDRU_LINE_WORDS, 0);
    plan("the body", LENT(body), 0);
    plan("its last lines the other way round", LENT(wrong_order), 0);
    plan("so, with y known", LENT(wrong_order), TELUDDRU_MARK_BOUND);
    plan("a line of three words", body, 3, 0);
    return 0;
}
