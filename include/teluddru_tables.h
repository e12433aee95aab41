/*
 * Tables for the calls of teluddru.h, put together node by node or read from rule text and JSON (teluddru_rule_text.h),
 * and their numbers in words (teluddru_words.h). Header only, C99 and C++11 up; nothing is allocated. This is code beside
 * the proved library: nothing in it is proved. The calls are lent its tables as any others, and check them.
 *
 *     static struct teluddru_tables t;
 *     struct teluddru_reading rule = teluddru_read_rule(&t, TELUDDRU_TEXT("{\"left\": w, \"right\": w}"));
 *     struct teluddru_lengths rule_alone = t.used;
 *     then for each part:
 *         uint32_t fields[4];
 *         fields[0] = teluddru_put_string(&t, TELUDDRU_TEXT("left"));
 *         fields[1] = teluddru_put_int(&t, 18);
 *         ..
 *         uint32_t part = teluddru_put_list(&t, TELUDDRU_NODE_OBJECT, fields, 4);
 *         teluddru_run(TELUDDRU_LEND(&t), TELUDDRU_LEND_MARKS(&t), .., rule.first, part, ..);
 *         t.used = rule_alone;
 *
 * The last line takes the part off again: tables have 512 nodes, so parts are put behind a rule one after the other.
 */
#ifndef TELUDDRU_TABLES_H
#define TELUDDRU_TABLES_H

#include <string.h>

#include "teluddru.h"

/* How many words or bytes of each table are in use. A copy of `used` is a place to go back to: see above. */
struct teluddru_lengths {
    size_t nodes, children, numbers, names, strings, text;
};

/* The tables at their limits, some 42 KB, and a byte of marks for each name. */
struct teluddru_tables {
    uint32_t nodes[TELUDDRU_MOST_NODES * TELUDDRU_NODE_WORDS];
    uint32_t children[TELUDDRU_MOST_CHILDREN];
    uint64_t numbers[TELUDDRU_MOST_NUMBERS * TELUDDRU_NUMBER_WORDS];
    uint32_t names[TELUDDRU_MOST_NAMES * TELUDDRU_NAME_WORDS];
    uint8_t strings[TELUDDRU_MOST_STRING_BYTES];
    uint8_t text[TELUDDRU_MOST_TEXT_BYTES];
    uint8_t marks[TELUDDRU_MOST_NAMES];
    struct teluddru_lengths used;
};

#define TELUDDRU_LENGTH(array) (sizeof(array) / sizeof((array)[0]))

/* The six tables, with which every call over tables begins; the marks, which most take next; an array. */
#define TELUDDRU_LEND(t)                                                                             \
    (t)->nodes, (t)->used.nodes, (t)->children, (t)->used.children, (t)->numbers, (t)->used.numbers, \
        (t)->names, (t)->used.names, (t)->strings, (t)->used.strings, (t)->text, (t)->used.text
#define TELUDDRU_LEND_MARKS(t) (t)->marks, (t)->used.names / TELUDDRU_NAME_WORDS
#define TELUDDRU_LEND_ARRAY(array) (array), TELUDDRU_LENGTH(array)

/* A string literal as bytes and their number, as the functions below take them. */
#define TELUDDRU_TEXT(literal) ("" literal), (sizeof(literal) - 1)

/* Tables that aren't static have to be cleared before the first use. */
static inline void teluddru_clear(struct teluddru_tables *t) {
    memset(&t->used, 0, sizeof t->used);
}

/* memcpy, which may be given null with length 0. */
static inline void teluddru_copy(uint8_t *to, const char *from, size_t length) {
    if (length > 0) {
        memcpy(to, from, length);
    }
}

/*
 * Nodes. Each function returns the number of the node that it puts, from 1; or 0, with nothing put, where there is no
 * space or no such node. A list with a child 0 is none, so it is enough to look at the last number.
 */

static inline uint32_t teluddru_nodes(const struct teluddru_tables *t) {
    return (uint32_t)(t->used.nodes / TELUDDRU_NODE_WORDS);
}

static inline int teluddru_has_space(const struct teluddru_tables *t) {
    return teluddru_nodes(t) < TELUDDRU_MOST_NODES;
}

static inline uint32_t teluddru_put_node(struct teluddru_tables *t, uint32_t kind, size_t first, size_t count) {
    uint32_t *node = t->nodes + t->used.nodes;
    if (!teluddru_has_space(t)) {
        return 0;
    }
    node[0] = kind;
    node[1] = node[2] = 0;
    node[3] = (uint32_t)first;
    node[4] = (uint32_t)count;
    t->used.nodes += TELUDDRU_NODE_WORDS;
    return teluddru_nodes(t);
}

static inline uint32_t teluddru_put_null(struct teluddru_tables *t) {
    return teluddru_put_node(t, TELUDDRU_NODE_NULL, 0, 0);
}

/* An expression that is compared whole, as a call. */
static inline uint32_t teluddru_put_other(struct teluddru_tables *t) {
    return teluddru_put_node(t, TELUDDRU_NODE_OTHER, 0, 0);
}

static inline uint32_t teluddru_put_bool(struct teluddru_tables *t, int value) {
    return teluddru_put_node(t, TELUDDRU_NODE_BOOL, value != 0, 0);
}

/* A number by its sign and size; there is no minus zero, and none below -2^63. */
static inline uint32_t teluddru_put_number(struct teluddru_tables *t, int below_zero, uint64_t size) {
    size_t place = t->used.numbers;
    int is_number = !below_zero || (size > 0 && size <= (uint64_t)1 << 63);
    if (!is_number || place == TELUDDRU_LENGTH(t->numbers) || !teluddru_has_space(t)) {
        return 0;
    }
    t->numbers[place] = below_zero != 0;
    t->numbers[place + 1] = size;
    t->used.numbers += TELUDDRU_NUMBER_WORDS;
    return teluddru_put_node(t, TELUDDRU_NODE_NUMBER, place / TELUDDRU_NUMBER_WORDS, 0);
}

static inline uint32_t teluddru_put_int(struct teluddru_tables *t, int64_t value) {
    uint64_t size = value < 0 ? (uint64_t)0 - (uint64_t)value : (uint64_t)value;
    return teluddru_put_number(t, value < 0, size);
}

static inline uint32_t teluddru_put_string(struct teluddru_tables *t, const char *bytes, size_t length) {
    size_t place = t->used.strings;
    if (length > sizeof t->strings - place || !teluddru_has_space(t)) {
        return 0;
    }
    teluddru_copy(t->strings + place, bytes, length);
    t->used.strings += length;
    return teluddru_put_node(t, TELUDDRU_NODE_STRING, place, length);
}

/* An array or a set of so many items, or an object of so many keys and values in turn. */
static inline uint32_t teluddru_put_list(struct teluddru_tables *t, uint32_t kind,
                                         const uint32_t *items, size_t count) {
    size_t place = t->used.children, each = kind == TELUDDRU_NODE_OBJECT ? 2 : 1, i;
    if (count > TELUDDRU_LENGTH(t->children) - place || count % each != 0 || !teluddru_has_space(t)) {
        return 0;
    }
    for (i = 0; i < count; i++) {
        if (items[i] == 0 || items[i] > teluddru_nodes(t)) {
            return 0;
        }
        t->children[place + i] = items[i];
    }
    t->used.children += count;
    return teluddru_put_node(t, kind, place, count / each);
}

/* The five words of a node. */
static inline const uint32_t *teluddru_words_of(const struct teluddru_tables *t, uint32_t node) {
    return t->nodes + (size_t)TELUDDRU_NODE_WORDS * (node - 1);
}

/* How many child entries a node has. */
static inline size_t teluddru_entries_of(const struct teluddru_tables *t, uint32_t node) {
    const uint32_t *words = teluddru_words_of(t, node);
    if (words[0] == TELUDDRU_NODE_OBJECT) {
        return (size_t)2 * words[4];
    }
    return words[0] == TELUDDRU_NODE_ARRAY || words[0] == TELUDDRU_NODE_SET ? words[4] : 0;
}

/* The place of a node among the child entries; past them if it has no parent. */
static inline size_t teluddru_entry_of(const struct teluddru_tables *t, uint32_t node) {
    size_t entry = 0;
    while (entry < t->used.children && t->children[entry] != node) {
        entry++;
    }
    return entry;
}

/* The array, set or object that has a node as its child, and at which place, from 0; or 0. A path leads up by it. */
static inline uint32_t teluddru_parent_of(const struct teluddru_tables *t, uint32_t child, size_t *place) {
    size_t entry = teluddru_entry_of(t, child);
    uint32_t node;
    for (node = child + 1; entry < t->used.children && node <= teluddru_nodes(t); node++) {
        *place = entry - teluddru_words_of(t, node)[3];
        if (*place < teluddru_entries_of(t, node)) {
            return node;
        }
    }
    return 0;
}

/*
 * Names. A name is known by its bytes: it has one number, from 1, and stands in the text once, however often it is put.
 */

/* The number of a name, or 0. */
static inline uint32_t teluddru_name_number(const struct teluddru_tables *t, const char *bytes, size_t length) {
    uint32_t number = 0;
    const uint32_t *name = t->names;
    for (; number < t->used.names / TELUDDRU_NAME_WORDS; number++, name += TELUDDRU_NAME_WORDS) {
        if (name[1] == length && memcmp(t->text + name[0], bytes, length) == 0) {
            return number + 1;
        }
    }
    return 0;
}

/* Gives a name of the tables its marks, a sum of enum teluddru_mark. Its number, or 0 where there is no such name. */
static inline uint32_t teluddru_mark_name(struct teluddru_tables *t, const char *bytes, size_t length, uint8_t marks) {
    uint32_t number = teluddru_name_number(t, bytes, length);
    if (number > 0) {
        t->marks[number - 1] = marks;
    }
    return number;
}

/* The number of the name that stands in the text at `start`, which is added, without marks, if it is new; or 0. */
static inline uint32_t teluddru_name_at(struct teluddru_tables *t, size_t start, size_t length) {
    uint32_t number = teluddru_name_number(t, (const char *)t->text + start, length);
    uint32_t *name = t->names + t->used.names;
    if (number > 0) {
        return number;
    }
    if (length == 0 || length > TELUDDRU_MOST_NAME_BYTES || t->used.names == TELUDDRU_LENGTH(t->names)) {
        return 0;
    }
    name[0] = (uint32_t)start;
    name[1] = (uint32_t)length;
    t->marks[t->used.names / TELUDDRU_NAME_WORDS] = 0;
    t->used.names += TELUDDRU_NAME_WORDS;
    return (uint32_t)(t->used.names / TELUDDRU_NAME_WORDS);
}

/* Says from where to where in the text a node was written, if it is one. A name has to have its own bytes there. */
static inline uint32_t teluddru_written(struct teluddru_tables *t, uint32_t node, size_t start, size_t end) {
    if (node > 0) {
        uint32_t *words = t->nodes + (size_t)TELUDDRU_NODE_WORDS * (node - 1);
        words[1] = (uint32_t)start;
        words[2] = (uint32_t)end;
    }
    return node;
}

/* The number of a name, which is added to the text and the names if it is new; or 0. */
static inline uint32_t teluddru_name_for(struct teluddru_tables *t, const char *bytes, size_t length) {
    uint32_t number = teluddru_name_number(t, bytes, length);
    if (number > 0 || length > sizeof t->text - t->used.text) {
        return number;
    }
    teluddru_copy(t->text + t->used.text, bytes, length);
    number = teluddru_name_at(t, t->used.text, length);
    t->used.text += number > 0 ? length : 0;
    return number;
}

static inline uint32_t teluddru_put_name(struct teluddru_tables *t, const char *bytes, size_t length) {
    uint32_t number = teluddru_has_space(t) ? teluddru_name_for(t, bytes, length) : 0, start;
    if (number == 0) {
        return 0;
    }
    start = t->names[TELUDDRU_NAME_WORDS * (number - 1)];
    return teluddru_written(t, teluddru_put_node(t, TELUDDRU_NODE_NAME, number, 0), start, start + length);
}

#include "teluddru_rule_text.h"
#include "teluddru_words.h"

#endif
