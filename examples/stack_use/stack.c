/*
 * stack BYTES SHEET..: makes every call on each sheet (on its text and on its tables), and those of the plan
 * store, on a thread whose stack was painted, and prints how much of the stack each took. Exit status 1 if one
 * took more than BYTES.
 */
#define _XOPEN_SOURCE 700
#include <pthread.h>
#include <stdio.h>
#include <stdlib.h>
#include <string.h>

#include "teluddru.h"

enum { STACK_BYTES = 1 << 20, PAINT = 0xa5, COLUMN = 6, LINE_1 = 0, LINE_2 = 37 };

#define LENGTH(array) (sizeof(array) / sizeof((array)[0]))

static uint8_t sheet[TELUDDRU_SHEET_BYTES + 1];
static size_t sheet_length;
static uint8_t listing[TELUDDRU_LISTING_BYTES];
static uint8_t pages[TELUDDRU_PAGES_BYTES];
static uintptr_t call_place;

/* A sheet's tables; a name's marks stand in its line. */
static uint32_t nodes[TELUDDRU_MOST_NODES * TELUDDRU_NODE_WORDS];
static uint32_t children[TELUDDRU_MOST_CHILDREN];
static uint64_t numbers[TELUDDRU_MOST_NUMBERS * TELUDDRU_NUMBER_WORDS];
static uint32_t names[TELUDDRU_MOST_NAMES * TELUDDRU_NAME_WORDS];
static uint8_t marks[TELUDDRU_MOST_NAMES];
static size_t counts[6];
static uint32_t operation[6];
static const uint8_t *strings;
static uint32_t plan[TELUDDRU_PLAN_ENTRIES * TELUDDRU_ENTRY_WORDS];
static uint32_t list[TELUDDRU_MOST_NAMES];
static uint64_t lowest[TELUDDRU_MOST_NODES * TELUDDRU_NUMBER_WORDS];
static uint64_t highest[TELUDDRU_MOST_NODES * TELUDDRU_NUMBER_WORDS];
static uint32_t answer[TELUDDRU_BODY_ANSWER_WORDS];
static uint32_t body[2 * TELUDDRU_LINE_WORDS];
static uint32_t store[TELUDDRU_STORE_WORDS];
static uint32_t example_nodes[TELUDDRU_MOST_NODES * TELUDDRU_NODE_WORDS];
static uint32_t example_children[TELUDDRU_MOST_CHILDREN];

#define TABLES                                                                                              \
    nodes, counts[0] * TELUDDRU_NODE_WORDS, children, counts[1], numbers,                                    \
        counts[2] * TELUDDRU_NUMBER_WORDS, names, counts[3] * TELUDDRU_NAME_WORDS, strings, counts[4],       \
        strings + counts[4], counts[5], marks, counts[3]

static void fail(const char *what) {
    perror(what);
    exit(2);
}

static unsigned long column(size_t place, size_t width) {
    char digits[32] = {0};
    memcpy(digits, sheet + place, width);
    return strtoul(digits, NULL, 10);
}

/* The lines of a table, each of so many columns; the place after them. */
static size_t read_words(size_t place, size_t count, size_t columns, uint32_t *words) {
    for (size_t line = 0; line < count; line++, place += columns * COLUMN + 1) {
        for (size_t i = 0; i < columns; i++) {
            words[line * columns + i] = (uint32_t)column(place + i * COLUMN, COLUMN);
        }
    }
    return place;
}

static void read_sheet(const char *path) {
    FILE *file = fopen(path, "rb");
    if (file == NULL) {
        fail(path);
    }
    sheet_length = fread(sheet, 1, sizeof sheet, file);
    fclose(file);
}

/* The sheet's operation, a pattern alone as an index, and then an equality check of its names, which by then are bound. */
static void make_body(void) {
    uint32_t alone = operation[0] == TELUDDRU_PATTERN || operation[0] == TELUDDRU_PARAMETER;
    const uint32_t lines[] = {alone ? TELUDDRU_INDEX : operation[0], operation[3], operation[4], operation[5],
                              TELUDDRU_EQUALS, operation[3], operation[3], 0};
    memcpy(body, lines, sizeof body);
}

/* Whole numbers of 20 columns; those of the worst sheets are not below zero. */
static void read_tables(void) {
    uint32_t head[6], rows[TELUDDRU_MOST_NAMES * 3];
    read_words(LINE_1, 1, 6, head);
    for (size_t i = 0; i < 6; i++) {
        counts[i] = head[i];
    }
    size_t place = read_words(LINE_2, 1, 6, operation);
    place = read_words(place, counts[0], TELUDDRU_NODE_WORDS, nodes);
    place = read_words(place, counts[1], 1, children);
    for (size_t i = 0; i < counts[2]; i++, place += 21) {
        numbers[2 * i] = 0;
        numbers[2 * i + 1] = column(place, 20);
    }
    place = read_words(place, counts[3], 3, rows);
    for (size_t i = 0; i < counts[3]; i++) {
        names[2 * i] = rows[3 * i];
        names[2 * i + 1] = rows[3 * i + 1];
        marks[i] = (uint8_t)rows[3 * i + 2];
    }
    strings = sheet + place;
    memset(list, 0, sizeof list);
    make_body();
}

static void *call_sheet(void *unused) {
    volatile uint8_t local = 0;
    call_place = (uintptr_t)&local;
    plan_sheet(sheet, sheet_length, listing, sizeof listing);
    answer[0] = (uint32_t)strtoul((char[7]){listing[0], listing[1], listing[2], listing[3], listing[4], listing[5]}, NULL, 10);
    return unused;
}

static void *call_pages(void *unused) {
    volatile uint8_t local = 0;
    call_place = (uintptr_t)&local;
    teluddru_pages(sheet, sheet_length, pages, sizeof pages, answer, LENGTH(answer));
    return unused;
}

static void *call_plan(void *unused) {
    volatile uint8_t local = 0;
    call_place = (uintptr_t)&local;
    teluddru_plan(TABLES, operation[0], operation[1], operation[2], operation[3], operation[4], operation[5], TELUDDRU_REGO_V1,
                  plan, LENGTH(plan), answer, LENGTH(answer));
    return unused;
}

/* The left is the pattern, the right the value. */
static void *call_run(void *unused) {
    volatile uint8_t local = 0;
    call_place = (uintptr_t)&local;
    teluddru_run(TABLES, operation[1], operation[2], operation[3], operation[4], list, LENGTH(list), plan,
                 LENGTH(plan), answer, LENGTH(answer));
    return unused;
}

static void *call_first_miss(void *unused) {
    volatile uint8_t local = 0;
    call_place = (uintptr_t)&local;
    teluddru_first_miss(TABLES, operation[1], operation[2], operation[3], operation[4], list, LENGTH(list), answer, LENGTH(answer));
    return unused;
}

static void *call_body(void *unused) {
    volatile uint8_t local = 0;
    call_place = (uintptr_t)&local;
    teluddru_plan_body(TABLES, operation[1], body, LENGTH(body), plan, LENGTH(plan), answer, LENGTH(answer));
    return unused;
}

/* Every node may be 0 to 99, the literals of the worst sheets. */
static void *call_run_with_tolerance(void *unused) {
    volatile uint8_t local = 0;
    call_place = (uintptr_t)&local;
    for (size_t i = 0; i < counts[0]; i++) {
        highest[i * TELUDDRU_NUMBER_WORDS + 1] = 99;
    }
    teluddru_run_with_tolerance(TABLES, operation[1], operation[2], operation[3], operation[4], list, LENGTH(list), lowest, LENGTH(lowest),
                                highest, LENGTH(highest), plan, LENGTH(plan), answer, LENGTH(answer));
    return unused;
}

static void *call_report(void *unused) {
    volatile uint8_t local = 0;
    call_place = (uintptr_t)&local;
    teluddru_names_report(TABLES, operation[1], operation[2], operation[3], list, LENGTH(list), answer, LENGTH(answer));
    return unused;
}

/* The first byte of the text, behind the names in use if there is a place. */
static void *call_add_name(void *unused) {
    volatile uint8_t local = 0;
    call_place = (uintptr_t)&local;
    teluddru_add_name(nodes, counts[0] * TELUDDRU_NODE_WORDS, children, counts[1], numbers, counts[2] * TELUDDRU_NUMBER_WORDS,
                      names, LENGTH(names), strings, counts[4], strings + counts[4], counts[5], (uint32_t)counts[3], 0, 1,
                      answer, LENGTH(answer));
    return unused;
}

static void *call_table_fault(void *unused) {
    volatile uint8_t local = 0;
    call_place = (uintptr_t)&local;
    teluddru_table_fault(TABLES, answer, LENGTH(answer));
    return unused;
}

/* An example that left and right both match. */
static void *call_example(void *unused) {
    volatile uint8_t local = 0;
    call_place = (uintptr_t)&local;
    teluddru_common_example(TABLES, operation[1], operation[2], operation[3], list, LENGTH(list), marks, counts[3], operation[1], operation[2],
                            operation[4], list, LENGTH(list), example_nodes, LENGTH(example_nodes), example_children, LENGTH(example_children),
                            answer, LENGTH(answer));
    return unused;
}

static const struct {
    const char *name;
    void *(*call)(void *);
} calls[] = {{"plan_sheet", call_sheet}, {"pages", call_pages}, {"plan", call_plan}, {"plan_body", call_body}, {"run", call_run}, {"names_report", call_report},
           {"add_name", call_add_name}, {"table_fault", call_table_fault}};

/* Eight packs, of which the last keeps a plan before the first does. */
static void *call_set_up(void *unused) {
    volatile uint8_t local = 0;
    const uint32_t shares[TELUDDRU_MOST_PACKS] = {100, 100, 100, 100, 100, 100, 100, 100};
    call_place = (uintptr_t)&local;
    answer[0] = teluddru_store_set_up(store, LENGTH(store), shares, LENGTH(shares));
    return unused;
}

static void *call_keep_last(void *unused) {
    volatile uint8_t local = 0;
    call_place = (uintptr_t)&local;
    teluddru_store_keep(store, LENGTH(store), TELUDDRU_MOST_PACKS, plan, LENGTH(plan), 400, answer, LENGTH(answer));
    return unused;
}

static void *call_keep_first(void *unused) {
    volatile uint8_t local = 0;
    call_place = (uintptr_t)&local;
    teluddru_store_keep(store, LENGTH(store), 1, plan, LENGTH(plan), 400, answer, LENGTH(answer));
    return unused;
}

static void *call_read(void *unused) {
    volatile uint8_t local = 0;
    uint32_t entry[TELUDDRU_ENTRY_WORDS];
    call_place = (uintptr_t)&local;
    answer[0] = teluddru_store_read(store, LENGTH(store), TELUDDRU_MOST_PACKS, 399, entry, LENGTH(entry));
    return unused;
}

static void *call_empty(void *unused) {
    volatile uint8_t local = 0;
    call_place = (uintptr_t)&local;
    answer[0] = teluddru_store_empty(store, LENGTH(store));
    return unused;
}

static const struct {
    const char *name;
    void *(*call)(void *);
} store_calls[] = {{"store_set_up", call_set_up}, {"store_keep", call_keep_last}, {"store_keep", call_keep_first}, {"store_read", call_read}, {"store_empty", call_empty}, {"tolerance", call_run_with_tolerance}, {"example", call_example}, {"first_miss", call_first_miss}};

/* The bytes of a painted stack that a call changed, counted from the call down. */
static size_t stack_taken(uint8_t *stack, void *(*call)(void *)) {
    pthread_attr_t attributes;
    pthread_t thread;
    memset(stack, PAINT, STACK_BYTES);
    if (pthread_attr_init(&attributes) != 0 || pthread_attr_setstack(&attributes, stack, STACK_BYTES) != 0 ||
        pthread_create(&thread, &attributes, call, NULL) != 0 || pthread_join(thread, NULL) != 0) {
        fail("thread");
    }
    pthread_attr_destroy(&attributes);
    const uint8_t *lowest = stack;
    while (*lowest == PAINT) {
        lowest++;
    }
    return call_place - (uintptr_t)lowest;
}

int main(int count, char **arguments) {
    void *stack;
    size_t most = 0;
    if (count < 3) {
        fprintf(stderr, "usage: stack BYTES SHEET..\n");
        return 2;
    }
    if (posix_memalign(&stack, 4096, STACK_BYTES) != 0) {
        fail("stack");
    }
    size_t allowed = strtoul(arguments[1], NULL, 10);
    printf(" bytes  answer  call          sheet\n");
    for (size_t one = 0; one < LENGTH(calls); one++) {
        for (int number = 2; number < count; number++) {
            const char *slash = strrchr(arguments[number], '/');
            read_sheet(arguments[number]);
            read_tables();
            size_t taken = stack_taken(stack, calls[one].call);
            printf("%6zu  %6u  %-12s  %s\n", taken, (unsigned)answer[0], calls[one].name, slash ? slash + 1 : arguments[number]);
            most = taken > most ? taken : most;
        }
    }
    for (size_t one = 0; one < LENGTH(store_calls); one++) {
        size_t taken = stack_taken(stack, store_calls[one].call);
        printf("%6zu  %6u  %-12s  no sheet\n", taken, (unsigned)answer[0], store_calls[one].name);
        most = taken > most ? taken : most;
    }
    printf("%6zu bytes at most; allowed are %zu\n", most, allowed);
    free(stack);
    return most > allowed;
}
