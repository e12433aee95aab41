/* Plans a sheet from standard input through the static library and prints its pages, or the refusal's number. */
#include <stdio.h>

#include "teluddru.h"

static uint8_t sheet[TELUDDRU_SHEET_BYTES + 1];
static uint8_t pages[TELUDDRU_PAGES_BYTES];

int main(void) {
    uint32_t answer[TELUDDRU_ANSWER_WORDS];
    size_t length = fread(sheet, 1, sizeof sheet, stdin);
    if (teluddru_pages(sheet, length, pages, sizeof pages, answer, TELUDDRU_ANSWER_WORDS) != TELUDDRU_PAGES) {
        fprintf(stderr, "refused with %u\n", (unsigned)answer[0]);
        return 1;
    }
    size_t written = answer[1] * (size_t)TELUDDRU_PAGE_BYTES;
    return fwrite(pages, 1, written, stdout) == written ? 0 : 1;
}
