/* Null with length 0, for every range of every call: a line with each call's result. */
#include <stdio.h>

#include "teluddru_tables.h"

#define NOTHING NULL, 0
#define NO_TABLES NOTHING, NOTHING, NOTHING, NOTHING, NOTHING, NOTHING
#define NO_SIDE NOTHING, TELUDDRU_NO_SCHEDULER, TELUDDRU_RESPECT_PARENT, 1, NOTHING

static void print(const char *call, unsigned long result) {
    printf("%s %lu\n", call, result);
}

static void call_over_no_tables(void) {
    print("plan", teluddru_plan(NO_TABLES, NOTHING, TELUDDRU_PATTERN, TELUDDRU_NO_SCHEDULER, TELUDDRU_RESPECT_PARENT,
                                1, 0, 0, TELUDDRU_REGO_V0, NOTHING, NOTHING));
    print("plan_body", teluddru_plan_body(NO_TABLES, NOTHING, TELUDDRU_NO_SCHEDULER, NOTHING, NOTHING, NOTHING));
    print("run", teluddru_run(NO_TABLES, NOTHING, TELUDDRU_NO_SCHEDULER, TELUDDRU_RESPECT_PARENT, 1, 1, NOTHING,
                              NOTHING, NOTHING));
    print("run_with_tolerance",
          teluddru_run_with_tolerance(NO_TABLES, NOTHING, TELUDDRU_NO_SCHEDULER, TELUDDRU_RESPECT_PARENT, 1, 1, NOTHING,
                                      NOTHING, NOTHING, NOTHING, NOTHING));
    print("common_example", teluddru_common_example(NO_TABLES, NO_SIDE, NO_SIDE, NOTHING, NOTHING, NOTHING));
    print("names_report", teluddru_names_report(NO_TABLES, NOTHING, TELUDDRU_NO_SCHEDULER, TELUDDRU_RESPECT_PARENT, 1,
                                                NOTHING, NOTHING));
    print("add_name", teluddru_add_name(NO_TABLES, 0, 0, 1, NOTHING));
}

/* A rule without numbers and strings, whose std::vector would have null, and without marks and an answer. */
static void call_over_a_rule(void) {
    static struct teluddru_tables t;
    uint32_t plan[3 * TELUDDRU_ENTRY_WORDS];
    uint32_t rule = teluddru_read_rule(&t, TELUDDRU_TEXT("[w, w]")).first;
    uint32_t told = teluddru_plan(t.nodes, t.used.nodes, t.children, t.used.children, NOTHING, t.names, t.used.names,
                                  NOTHING, t.text, t.used.text, NOTHING, TELUDDRU_PATTERN, TELUDDRU_NO_SCHEDULER,
                                  TELUDDRU_RESPECT_PARENT, rule, 0, 0, TELUDDRU_REGO_V0, TELUDDRU_LEND_ARRAY(plan),
                                  NOTHING);
    print("plan of a rule", told);
    print("its second entry", plan[TELUDDRU_ENTRY_WORDS]);
}

int main(void) {
    call_over_no_tables();
    call_over_a_rule();
    print("store_set_up", teluddru_store_set_up(NOTHING, NOTHING));
    print("store_keep", teluddru_store_keep(NOTHING, 1, NOTHING, 0, NOTHING));
    print("store_read", teluddru_store_read(NOTHING, 1, 0, NOTHING));
    print("store_empty", teluddru_store_empty(NOTHING));
    print("plan_sheet", (unsigned long)teluddru_plan_sheet(NOTHING, NOTHING));
    print("pages", teluddru_pages(NOTHING, NOTHING, NOTHING));
    return 0;
}
