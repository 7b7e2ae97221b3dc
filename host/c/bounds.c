/*
 * Buffers of exactly the length that is said, each allocated by itself, for valgrind: it tells where
 * a byte outside is read or written, and where the library goes by a byte that nobody wrote. So
 * what may be left unwritten is: the answer buffer, and the sheet buffer behind its zero byte.
 */
#include "temsroi.h"

#include <stdio.h>
#include <stdlib.h>
#include <string.h>

static const char call_text[] = "(stats)";
static const char expected[] = "(stats 0 0 0 0 0 0 0 0)\n";
static const char refused[] = "(refused 1)\n";

static void fail(const char *what, size_t length)
{
    fprintf(stderr, "bounds: %s, %lu bytes\n", what, (unsigned long)length);
    exit(1);
}

/* A buffer that ends where the allocated bytes end, so that one of length 0 has a pointer too. */
enum { BEFORE = 16 };

static uint8_t *buffer(size_t length)
{
    uint8_t *bytes = (uint8_t *)malloc(BEFORE + length);

    if (bytes == NULL) {
        fail("no memory", length);
    }
    return bytes + BEFORE;
}

static void give_back(uint8_t *bytes)
{
    free(bytes - BEFORE);
}

/* A buffer with the sheet of a new driver and its zero byte; the rest is not written. */
static uint8_t *new_sheet(size_t length)
{
    uint8_t whole[TEMSROI_SHEET_BYTES];
    uint8_t *sheet = buffer(length);
    size_t room;

    if (temsroi_new(whole, sizeof whole) != TEMSROI_DONE) {
        fail("no new driver", sizeof whole);
    }
    room = strlen((const char *)whole) + 1;
    memcpy(sheet, whole, room < length ? room : length);
    return sheet;
}

static void lines(void)
{
    size_t length, i;

    for (length = 0; length <= 600; length++) {
        uint8_t *line = buffer(length);
        uint8_t *sheet = new_sheet(TEMSROI_SHEET_BYTES);
        uint8_t *answer = buffer(TEMSROI_ANSWER_BYTES);
        const char *should = length == 7 ? expected : refused;

        for (i = 0; i < length; i++) {
            line[i] = (uint8_t)(i < 7 ? call_text[i] : ' ');
        }
        if (temsroi_call(line, length, sheet, TEMSROI_SHEET_BYTES, answer, TEMSROI_ANSWER_BYTES)
                != TEMSROI_DONE
            || memcmp(answer, should, strlen(should)) != 0) {
            fail("line", length);
        }
        for (i = strlen((const char *)sheet); i < TEMSROI_SHEET_BYTES; i++) {
            if (sheet[i] != 0) {
                fail("the sheet's rest is not zero", i);
            }
        }
        give_back(line);
        give_back(sheet);
        give_back(answer);
    }
}

static void sheets(void)
{
    static const size_t lengths[] = {0, 1, 2, 100, 4094, 4095, 4096, 4097, 5000, 65536};
    size_t i;

    for (i = 0; i < sizeof lengths / sizeof lengths[0]; i++) {
        size_t length = lengths[i];
        uint64_t number = length < TEMSROI_SHEET_BYTES ? TEMSROI_SHORT_BUFFER : TEMSROI_DONE;
        uint8_t *sheet = new_sheet(length);
        uint8_t *answer = buffer(TEMSROI_ANSWER_BYTES);

        if (temsroi_call((const uint8_t *)call_text, 7, sheet, length, answer, TEMSROI_ANSWER_BYTES)
                != number
            || temsroi_new(sheet, length) != number) {
            fail("sheet", length);
        }
        /* Nothing ends the sheet before the buffer's end. */
        memset(sheet, '(', length);
        number = length < TEMSROI_SHEET_BYTES ? TEMSROI_SHORT_BUFFER : TEMSROI_SHEET_NOT_TAKEN;
        if (temsroi_call((const uint8_t *)call_text, 7, sheet, length, answer, TEMSROI_ANSWER_BYTES)
            != number) {
            fail("sheet without an end", length);
        }
        give_back(sheet);
        give_back(answer);
    }
}

static void answers(void)
{
    size_t length;

    for (length = 0; length <= 600; length++) {
        uint64_t number = length < TEMSROI_ANSWER_BYTES ? TEMSROI_SHORT_BUFFER : TEMSROI_DONE;
        uint8_t *sheet = new_sheet(TEMSROI_SHEET_BYTES);
        uint8_t *answer = buffer(length);

        if (temsroi_call((const uint8_t *)call_text, 7, sheet, TEMSROI_SHEET_BYTES, answer, length)
            != number) {
            fail("answer", length);
        }
        give_back(sheet);
        give_back(answer);
    }
}

int main(void)
{
    lines();
    sheets();
    answers();
    puts("no byte outside");
    return 0;
}
