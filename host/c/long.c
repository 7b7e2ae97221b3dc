/*
 * Lengths above 4 GiB: one that the library took as 32 bits would be short, and would show. The
 * memory is mapped, but only the pages that are touched are ever there. A sheet that is taken is
 * filled with zeros to its end: for those the memory between front and end is one piece, mapped
 * again and again.
 */
#define _GNU_SOURCE
#include "temsroi.h"

#include <stdio.h>
#include <string.h>
#include <sys/mman.h>
#include <unistd.h>

#define FOUR_GIB ((size_t)1 << 32)
#define MAPPED (FOUR_GIB + 8192)
#define PIECE ((size_t)1 << 21)

static uint8_t sheet[TEMSROI_SHEET_BYTES];
static uint8_t answer[TEMSROI_ANSWER_BYTES];

static int failed(const char *what)
{
    fprintf(stderr, "long: %s\n", what);
    return 1;
}

/* Maps one piece over all of the memory but its front and what is behind 4 GiB. */
static int pieces_mapped(uint8_t *bytes)
{
    int file = memfd_create("piece", 0);
    size_t at;

    if (file < 0 || ftruncate(file, (off_t)PIECE) != 0) {
        return 0;
    }
    for (at = PIECE; at < FOUR_GIB; at += PIECE) {
        if (mmap(bytes + at, PIECE, PROT_READ | PROT_WRITE, MAP_SHARED | MAP_FIXED, file, 0)
            == MAP_FAILED) {
            return 0;
        }
    }
    return close(file) == 0;
}

int main(void)
{
    static const char *const makers[] = {"temsroi_new, above 4 GiB", "a call, above 4 GiB"};
    const size_t end = FOUR_GIB + 4095;
    size_t i;
    uint8_t *bytes = (uint8_t *)mmap(NULL, MAPPED, PROT_READ | PROT_WRITE,
                                     MAP_PRIVATE | MAP_ANONYMOUS | MAP_NORESERVE, -1, 0);

    if (bytes == MAP_FAILED) {
        return failed("the memory cannot be mapped");
    }
    if (temsroi_new(sheet, sizeof sheet) != TEMSROI_DONE) {
        return failed("no new driver");
    }

    /* As 32 bits the line would be the call at its front. */
    memcpy(bytes, "(stats)", 7);
    if (temsroi_call(bytes, FOUR_GIB + 7, sheet, sizeof sheet, answer, sizeof answer) != TEMSROI_DONE
        || memcmp(answer, "(refused 1)\n", 12) != 0) {
        return failed("a line above 4 GiB");
    }

    /* As 32 bits the answer buffer would have no byte. */
    if (temsroi_call((const uint8_t *)"(stats)", 7, sheet, sizeof sheet, bytes, FOUR_GIB)
            != TEMSROI_DONE
        || memcmp(bytes, "(stats 0 0 0 0 0 0 0 0)\n", 24) != 0) {
        return failed("an answer buffer above 4 GiB");
    }

    /* As 32 bits the sheet buffer would have 4,095 bytes. */
    bytes[0] = 0;
    if (temsroi_call((const uint8_t *)"(stats)", 7, bytes, FOUR_GIB + 4095, answer, sizeof answer)
        != TEMSROI_SHEET_NOT_TAKEN) {
        return failed("a sheet buffer above 4 GiB");
    }

    /*
     * As 32 bits the first would be short, and the second would get zeros at its front only. What
     * is no zero stands in the front, in the piece, and at the end; behind it nothing is touched.
     */
    if (!pieces_mapped(bytes)) {
        return failed("the memory cannot be mapped again");
    }
    for (i = 0; i < 2; i++) {
        const size_t length = i == 0 ? end : end + 1;

        memset(bytes + 512, 1, PIECE);
        memset(bytes + FOUR_GIB, 1, MAPPED - FOUR_GIB);
        if ((i == 0 ? temsroi_new(bytes, length)
                    : temsroi_call((const uint8_t *)"(stats)", 7, bytes, length, answer,
                                   sizeof answer))
                != TEMSROI_DONE
            || strcmp((const char *)bytes, (const char *)sheet) != 0 || bytes[PIECE - 1] != 0
            || bytes[PIECE] != 0 || bytes[length - 1] != 0 || bytes[length] != 1) {
            return failed(makers[i]);
        }
    }
    puts("no length is cut");
    return 0;
}
