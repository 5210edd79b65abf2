/* Prints the findings of a sheet: main SHEET. */
#include "cenguatu.h"

#include <stdio.h>

static uint8_t sheet[8193]; /* one more than a sheet may have, so that a longer one is refused */
static uint8_t page[65536];

int main(int argc, char **argv) {
    FILE *file = argc == 2 ? fopen(argv[1], "rb") : NULL;
    if (!file) {
        fprintf(stderr, "usage: main SHEET\n");
        return 2;
    }
    size_t length = fread(sheet, 1, sizeof sheet, file);
    fclose(file);

    uint32_t answer = cenguatu_listing(sheet, length, page, sizeof page, 1);
    if (answer < 256) {
        printf("refused %u\n", answer);
        return 1;
    }
    fwrite(page, 1, answer - 256, stdout);
    return 0;
}
