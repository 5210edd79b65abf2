/* Holds the archive's function against the header: check SHEET LISTING WARNINGS. The listing is what the sheet must give. `./test` builds
   this with -DARGUMENTS=.., the parameters' names as the header has them in order, so that each is lent what the header calls it. */
#include "cenguatu.h"

#include <stdio.h>
#include <stdlib.h>
#include <string.h>

#define MARGIN 64
#define BLANK 0xA5

static uint8_t bytes[8193], expected[65536], sheet[8193], around[65536 + 2 * MARGIN];
static size_t sheet_len, length;
static uint8_t *const page = around + MARGIN;
static size_t page_len;
static uint32_t warnings;

static size_t whole(const char *path, uint8_t *to, size_t most) {
    FILE *file = fopen(path, "rb");
    if (!file) {
        perror(path);
        exit(2);
    }
    size_t count = fread(to, 1, most, file);
    fclose(file);
    return count;
}

/* One call with so much of the sheet and so long a page: its answer, and the text, must be these, and no other byte may be altered. */
static void call(const char *path, size_t sheet_part, size_t page_part, uint32_t answer, size_t text) {
    memcpy(sheet, bytes, sizeof sheet);
    memset(around, BLANK, sizeof around);
    sheet_len = sheet_part;
    page_len = page_part;
    uint32_t given = cenguatu_listing(ARGUMENTS);
    int right = given == answer && memcmp(sheet, bytes, sizeof sheet) == 0 && memcmp(page, expected, text) == 0;
    for (size_t at = 0; at < sizeof around; at++) {
        right = right && (around[at] == BLANK || (at >= MARGIN && at < MARGIN + text));
    }
    if (!right) {
        printf("%s, warnings %u, %zu bytes of it, a page of %zu: answer %u for %u, or other bytes than expected\n", path, warnings, sheet_part,
               page_part, given, answer);
        exit(1);
    }
}

int main(int argc, char **argv) {
    if (argc != 4) {
        fprintf(stderr, "usage: check SHEET LISTING WARNINGS\n");
        return 2;
    }
    size_t full = whole(argv[1], bytes, sizeof bytes);
    length = whole(argv[2], expected, sizeof expected);
    warnings = strtoul(argv[3], NULL, 10);
    call(argv[1], full, length + 100, 256 + length, length);
    call(argv[1], full, length, 256 + length, length);
    call(argv[1], full, length - 1, 10, 0);
    call(argv[1], full, 0, 10, 0);
    call(argv[1], full - 1, length, 1, 0);
    call(argv[1], 0, length, 1, 0);
    return 0;
}
