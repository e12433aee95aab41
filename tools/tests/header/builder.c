/*
 * What teluddru_tables.h makes of text, for test_builder.py. Commands from standard input, with a line of output each:
 *
 *     clear          begins with empty tables
 *     rule N         reads the rule that the next N bytes and a line feed are
 *     value N        reads the value that they are
 *     mark N MARKS   gives the name that they are its marks
 *     put            puts the rule's roots and the value once more, into empty tables, by the functions for nodes
 *     tables         prints the tables
 *     plan           plans the rule: the answer, the entries
 *     run            runs the pattern on the value: the answer, the values of the names
 */
#include <stdio.h>
#include <stdlib.h>

#include "teluddru_tables.h"

static struct teluddru_tables tables, emptied;
static struct teluddru_reading rule, value;
static uint32_t plan[TELUDDRU_PLAN_ENTRIES * TELUDDRU_ENTRY_WORDS];
static uint32_t answer[TELUDDRU_ANSWER_WORDS];

/* A copy of its own length, so that the sanitizer sees a byte that is read past it. */
static char *read_bytes(size_t length) {
    char *bytes = malloc(length);
    if (fread(bytes, 1, length, stdin) != length || getchar() != '\n') {
        exit(3);
    }
    return bytes;
}

static void print_words(const char *name, const uint32_t *words, size_t length) {
    printf("%s", name);
    for (size_t i = 0; i < length; i++) {
        printf(" %lu", (unsigned long)words[i]);
    }
}

static void print_numbers(void) {
    printf(" numbers");
    for (size_t i = 0; i < tables.used.numbers; i++) {
        printf(" %llu", (unsigned long long)tables.numbers[i]);
    }
}

static void print_bytes(const char *name, const uint8_t *bytes, size_t length) {
    printf(" %s ", name);
    for (size_t i = 0; i < length; i++) {
        printf("%02x", bytes[i]);
    }
}

static void print_tables(void) {
    print_words("nodes", tables.nodes, tables.used.nodes);
    print_words(" children", tables.children, tables.used.children);
    print_numbers();
    print_words(" names", tables.names, tables.used.names);
    print_bytes("strings", tables.strings, tables.used.strings);
    print_bytes("text", tables.text, tables.used.text);
    print_bytes("marks", tables.marks, tables.used.names / TELUDDRU_NAME_WORDS);
    printf("\n");
}

static void print_reading(struct teluddru_reading reading) {
    if (reading.why != NULL) {
        printf("wrong at %lu: %s\n", (unsigned long)reading.place, reading.why);
        return;
    }
    printf("read %u %u %u %u\n", (unsigned)reading.operation, (unsigned)reading.first, (unsigned)reading.second,
           (unsigned)reading.key);
}

static uint32_t put_again(const struct teluddru_tables *from, uint32_t node);

static uint32_t put_list_again(const struct teluddru_tables *from, const uint32_t *words, size_t count) {
    uint32_t items[TELUDDRU_MOST_CHILDREN];
    for (size_t i = 0; i < count; i++) {
        items[i] = put_again(from, from->children[words[3] + i]);
    }
    return teluddru_put_list(&tables, words[0], items, count);
}

/* Puts a node of other tables. A raw string is put as a string: they are equal. */
static uint32_t put_again(const struct teluddru_tables *from, uint32_t node) {
    const uint32_t *words = teluddru_words_of(from, node);
    const uint64_t *number = from->numbers + TELUDDRU_NUMBER_WORDS * words[3];
    switch (words[0]) {
    case TELUDDRU_NODE_STRING:
        return teluddru_put_string(&tables, (const char *)from->strings + words[3], words[4]);
    case TELUDDRU_NODE_RAW_STRING:
        return teluddru_put_string(&tables, (const char *)from->text + words[3], words[4]);
    case TELUDDRU_NODE_NUMBER:
        return teluddru_put_number(&tables, number[0] != 0, number[1]);
    case TELUDDRU_NODE_BOOL:
        return teluddru_put_bool(&tables, words[3] != 0);
    case TELUDDRU_NODE_NULL:
        return teluddru_put_null(&tables);
    case TELUDDRU_NODE_NAME:
        return teluddru_put_name(&tables, (const char *)from->text + words[1], words[2] - words[1]);
    case TELUDDRU_NODE_OTHER:
        return teluddru_put_other(&tables);
    default:
        return put_list_again(from, words, teluddru_entries_of(from, node));
    }
}

static void put_rule_again(void) {
    struct teluddru_tables from = tables;
    uint32_t *roots[] = {&rule.key, &rule.first, &rule.second, &value.first};
    tables = emptied;
    for (size_t i = 0; i < TELUDDRU_LENGTH(roots); i++) {
        *roots[i] = *roots[i] == 0 ? 0 : put_again(&from, *roots[i]);
    }
    /* The names are numbered as before, so each has its marks. */
    memcpy(tables.marks, from.marks, sizeof tables.marks);
    printf("put\n");
}

static void plan_rule(void) {
    teluddru_plan(TELUDDRU_LEND(&tables), TELUDDRU_LEND_MARKS(&tables), rule.operation, TELUDDRU_NO_SCHEDULER,
                  TELUDDRU_RESPECT_PARENT, rule.first, rule.second, rule.key, TELUDDRU_REGO_V0,
                  TELUDDRU_LEND_ARRAY(plan), TELUDDRU_LEND_ARRAY(answer));
    print_words("answer", answer, TELUDDRU_ANSWER_WORDS);
    print_words(" plan", plan, answer[0] == TELUDDRU_PLANNED ? answer[3] * TELUDDRU_ENTRY_WORDS : 0);
    printf("\n");
}

static void run_rule(void) {
    uint32_t values[TELUDDRU_MOST_NAMES] = {0};
    teluddru_run(TELUDDRU_LEND(&tables), TELUDDRU_LEND_MARKS(&tables), TELUDDRU_NO_SCHEDULER, TELUDDRU_RESPECT_PARENT,
                 rule.first, value.first, TELUDDRU_LEND_ARRAY(values), TELUDDRU_LEND_ARRAY(plan),
                 TELUDDRU_LEND_ARRAY(answer));
    print_words("answer", answer, TELUDDRU_ANSWER_WORDS);
    print_words(" values", values, tables.used.names / TELUDDRU_NAME_WORDS);
    printf("\n");
}

static void follow(const char *command, size_t length, unsigned marks) {
    char *bytes = length < SIZE_MAX ? read_bytes(length) : NULL;
    if (strcmp(command, "clear") == 0) {
        tables = emptied;
        memset(&rule, 0, sizeof rule);
        memset(&value, 0, sizeof value);
        printf("cleared\n");
    } else if (strcmp(command, "rule") == 0) {
        print_reading(rule = teluddru_read_rule(&tables, bytes, length));
    } else if (strcmp(command, "value") == 0) {
        print_reading(value = teluddru_read_value(&tables, bytes, length));
    } else if (strcmp(command, "mark") == 0) {
        printf("marked %u\n", (unsigned)teluddru_mark_name(&tables, bytes, length, (uint8_t)marks));
    } else if (strcmp(command, "put") == 0) {
        put_rule_again();
    } else if (strcmp(command, "tables") == 0) {
        print_tables();
    } else if (strcmp(command, "plan") == 0) {
        plan_rule();
    } else {
        run_rule();
    }
    free(bytes);
}

int main(void) {
    char line[64], command[16];
    teluddru_clear(&emptied);
    while (fgets(line, sizeof line, stdin) != NULL) {
        unsigned long length;
        unsigned marks = 0;
        int has_bytes = sscanf(line, "%15s %lu %u", command, &length, &marks) > 1;
        follow(command, has_bytes ? length : SIZE_MAX, marks);
    }
    return 0;
}
