/*
 * A block settles cold, is delivered again after another block, and is still shown cold: the
 * example at the end of docs/HEADSCRIPT.md, from C. Each line is printed with its answer below it.
 * Then the sheet is kept and printed, and a driver goes on from it.
 */
#include "temsroi.h"

#include <inttypes.h>
#include <stdio.h>
#include <string.h>

#define ZEROS "0x0000000000000000000000000000000000000000000000000000000000000000"

static uint8_t sheet[TEMSROI_SHEET_BYTES];
static uint8_t answer[TEMSROI_ANSWER_BYTES];

/* A sheet that is kept, as a file would have it: without a zero byte. */
static char kept[TEMSROI_SHEET_BYTES];

static const char *const lines[] = {
    "(deliver (7 none) " ZEROS " 50)",
    "(apply (7 none) 1 (7 none) no-hash 60 0 90)",
    "(snapshot (7 none) 51)",
    "(deliver (8 none) " ZEROS " 52)",
    "(apply (7 none) 1 (7 none) no-hash 61 0 91)", /* refused 11: another block is the head */
    "(deliver (7 none) " ZEROS " 53)",
    "(snapshot (7 none) 54)",
    "(stats)\n", /* refused 1: a line is given without its line feed */
    "(sheet)",   /* done: the sheet stands in its buffer */
};

/* Makes one call and prints it. Returns 0, or 1 where the library did not make it. */
static int call(const char *line)
{
    size_t length = strlen(line);
    uint64_t number = temsroi_call((const uint8_t *)line, length, sheet, sizeof sheet,
                                   answer, sizeof answer);
    const uint8_t *end = (const uint8_t *)memchr(answer, '\n', sizeof answer);

    if (number != TEMSROI_DONE || end == NULL) {
        fprintf(stderr, "example: %s: the library returned %" PRIu64 "\n", line, number);
        return 1;
    }
    printf("%s%s%.*s", line, line[length - 1] == '\n' ? "" : "\n",
           (int)(end - answer) + 1, (const char *)answer);
    return 0;
}

int main(void)
{
    size_t i, length;

    /* A buffer of zeros is no sheet. */
    if (temsroi_call((const uint8_t *)"(stats)", 7, sheet, sizeof sheet, answer, sizeof answer)
        != TEMSROI_SHEET_NOT_TAKEN) {
        fprintf(stderr, "example: a buffer of zeros was taken\n");
        return 1;
    }
    if (temsroi_new(sheet, sizeof sheet - 1) != TEMSROI_SHORT_BUFFER) {
        fprintf(stderr, "example: a short buffer was taken\n");
        return 1;
    }
    if (temsroi_new(sheet, sizeof sheet) != TEMSROI_DONE) {
        fprintf(stderr, "example: there is no new driver\n");
        return 1;
    }
    for (i = 0; i < sizeof lines / sizeof lines[0]; i++) {
        if (call(lines[i]) != 0) {
            return 1;
        }
    }

    /* To keep the sheet: a zero byte follows it, so it is a string. */
    length = strlen((const char *)sheet);
    memcpy(kept, sheet, length);
    printf("\n%.*s\n", (int)length, kept);

    /* Another driver, whose sheet is longer, has the buffer meanwhile. */
    memset(sheet, '(', sizeof sheet);

    /* To go on from it: the bytes to the front, and a zero byte behind them. */
    memcpy(sheet, kept, length);
    sheet[length] = 0;
    return call("(heads)");
}
