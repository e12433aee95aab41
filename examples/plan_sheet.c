/* Plans a sheet from standard input through the static library and prints its listing. */
#include <stdio.h>

#include "teluddru.h"

static uint8_t sheet[TELUDDRU_SHEET_BYTES + 1];
static uint8_t listing[TELUDDRU_LISTING_BYTES];

int main(void) {
    size_t length = fread(sheet, 1, sizeof sheet, stdin);
    size_t written = teluddru_plan_sheet(sheet, length, listing, sizeof listing);
    return fwrite(listing, 1, written, stdout) == written ? 0 : 1;
}
