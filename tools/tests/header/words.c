/* All words of teluddru_words.h, a line for each number. */
#include <stdio.h>

#include "teluddru_tables.h"

int main(void) {
    for (uint32_t number = 0; number < 256; number++) {
        printf("answer %u %s\n", (unsigned)number, teluddru_answer_words(number));
        printf("entry %u %s\n", (unsigned)number, teluddru_entry_words(number));
        printf("rule %u %s\n", (unsigned)number, teluddru_rule_words(number));
        printf("miss %u %s\n", (unsigned)number, teluddru_miss_words(number));
    }
    return 0;
}
