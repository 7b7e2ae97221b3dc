/*
 * The library with a fault at its C boundary: the two functions once more, made of the proved ones,
 * with one thing done wrong. The script `faults` builds it around the archive, whose own functions
 * it renames, and asks of the tests of this folder that some of them fail.
 */
#include "temsroi.h"

#include <stdlib.h>
#include <string.h>

/*
 * Every fault, with the test that is tried first and what is wrong. `faults` reads these lines.
 *
 * Three are left out, since no host could tell them. Without leading zeros and with single spaces
 * no call is near 512 bytes, so a line cut to 512 is none before and after. A sheet has under 4,096
 * bytes, so where a buffer's first 4,096 have no zero byte, what follows them decides nothing. And
 * the number returned has one byte that is not zero at most, so a cut one is the same.
 */
enum fault {
    none,

    /* Lengths and pointers. */
    line_cut_8,              /* lengths: the line's length is taken as 8 bits */
    line_cut_16,             /* lengths: the line's length is taken as 16 bits */
    line_cut_32,             /* long: the line's length is taken as 32 bits */
    sheet_cut_16,            /* lengths: the sheet's length is taken as 16 bits */
    sheet_cut_32,            /* long: the sheet's length is taken as 32 bits */
    answer_cut_16,           /* lengths: the answer's length is taken as 16 bits */
    answer_cut_32,           /* long: the answer's length is taken as 32 bits */
    lengths_exchanged,       /* lengths: the lengths of sheet and answer are exchanged */
    line_sheet_exchanged,    /* lengths: the lengths of line and sheet are exchanged */
    line_answer_exchanged,   /* lengths: the lengths of line and answer are exchanged */
    buffers_exchanged,       /* lengths: the pointers of sheet and answer are exchanged */

    /* What is returned. */
    answer_512_short,        /* lengths: 4 for an answer buffer of 512 bytes */
    answer_511_taken,        /* lengths: an answer buffer of 511 bytes is long enough */
    sheet_4096_short,        /* lengths: 4 for a sheet buffer of 4,096 bytes */
    sheet_4095_taken,        /* lengths: a sheet buffer of 4,095 bytes is long enough */
    short_answer_taken,      /* lengths: a short answer buffer gets what fits */
    five_before_four,        /* buffers: a sheet that is not taken is 5 in short buffers too */
    five_as_four,            /* buffers: 4 where it should be 5 */
    refusal_returned,        /* lengths: refusal 1 is returned as a number, its answer written */
    refusal_16_returned,     /* buffers: refusal 16 is returned as a number, its answer written */
    long_line_short,         /* lengths: 4 for a line of more than 512 bytes */
    zeros_taken,             /* buffers: a buffer of zeros is taken as the sheet of a new driver */

    /* What is written. */
    sheet_written_on_4,      /* buffers: on 4 the sheet buffer gets zeros behind its zero byte */
    answer_written_on_4,     /* buffers: on 4 the answer buffer gets (refused 4) */
    sheet_written_on_5,      /* buffers: on 5 the sheet buffer gets zeros behind its zero byte */
    answer_written_on_5,     /* buffers: on 5 the answer buffer gets (refused 5) */
    sheet_written_back,      /* answers: the old sheet is written back */
    zeros_one_only,          /* lengths: one zero byte behind the new sheet, then the old bytes */
    zeros_to_4096,           /* lengths: zeros behind the new sheet up to 4,096 bytes only */
    zeros_to_the_last,       /* lengths: zeros behind the new sheet but for the last byte */
    zeros_cut_32,            /* long: zeros behind the new sheet up to its length as 32 bits */
    zeros_from_4097,         /* buffers: a longer sheet buffer gets zeros only behind 4,096 bytes */
    answer_zero_byte,        /* buffers: the byte behind the answer's line feed gets zero */
    answer_zeros,            /* lengths: the answer buffer gets zeros to its end */
    answer_last_byte,        /* lengths: the answer buffer's last byte gets zero */
    feed_missing,            /* lengths: the answer ends in a zero byte, not in a line feed */
    feed_two_bytes,          /* lengths: the answer ends in a carriage return and a line feed */
    behind_sheet_written,    /* buffers: the byte behind the sheet buffer gets zero */
    before_sheet_written,    /* buffers: the byte before the sheet buffer gets zero */
    behind_answer_written,   /* buffers: the byte behind the answer buffer gets zero */
    behind_line_written,     /* buffers: the byte behind a line that is no call gets zero */
    line_written,            /* buffers: the last byte of a line that is no call gets zero */
    refusal_keeps_sheet,     /* buffers: refusal 1 leaves the sheet buffer as it was */
    refusal_keeps_answer,    /* lengths: refusal 1 leaves the answer buffer as it was */
    sheet_unanswered,        /* driver: (sheet) leaves the answer buffer as it was */
    sheet_answered_by_sheet, /* driver: (sheet) is answered with the sheet, as headscript does */

    /* What is read. */
    line_to_feed,            /* lengths: the line ends at its first line feed */
    line_feed_dropped,       /* lengths: a line feed at the line's end is dropped */
    line_to_zero,            /* beside_headscript: the line ends at its first zero byte */
    line_spaces_dropped,     /* lengths: spaces at the line's end are dropped */
    sheet_past_zero,         /* buffers: the first zero byte does not end the sheet */
    sheet_feeds_dropped,     /* lengths: line feeds at the sheet's end are dropped but for one */
    sheet_case_dropped,      /* beside_headscript: a sheet's capital letters are taken as small */
    before_line_read,        /* valgrind: a bracket before the line is read as part of it */
    behind_line_read,        /* valgrind: the byte behind the line is read */
    behind_sheet_read,       /* valgrind: the byte behind the sheet buffer is read */
    behind_answer_read,      /* valgrind: the byte behind the answer buffer is read */
    answer_decides,          /* valgrind: the answer buffer's old bytes decide something */
    sheet_rest_decides,      /* valgrind: bytes behind the sheet's zero byte decide something */

    /* What is kept between calls. */
    sheet_kept,              /* driver: the sheet of the last call stands in for the one lent */
    sheet_kept_by_pointer,   /* lengths: it does where the buffer is the last call's */
    line_kept,               /* buffers: an empty line makes the last call again */
    sheet_shared,            /* threads: sheets are worked on in one buffer of the library */
    answer_shared,           /* threads: answers are written in one buffer of the library */
    line_shared,             /* threads: lines are read from one buffer of the library */

    /* New drivers. */
    new_cut_16,              /* lengths: temsroi_new takes its length as 16 bits */
    new_cut_32,              /* long: temsroi_new takes its length as 32 bits */
    new_4096_short,          /* lengths: temsroi_new returns 4 for 4,096 bytes */
    new_4095_taken,          /* lengths: temsroi_new takes 4,095 bytes */
    new_short_done,          /* lengths: temsroi_new returns 0 for a short buffer */
    new_short_written,       /* lengths: temsroi_new begins a sheet in a short buffer */
    new_no_zeros,            /* lengths: temsroi_new writes no zeros but one */
    new_zeros_to_4096,       /* lengths: temsroi_new writes zeros up to 4,096 bytes only */
    new_zeros_to_the_last,   /* lengths: temsroi_new writes zeros but for the last byte */
    new_only_zeros,          /* lengths: temsroi_new writes zeros and no sheet */
    new_behind_written       /* buffers: the byte behind temsroi_new's buffer gets zero */
};

#ifndef FAULT
#define FAULT none
#endif

uint64_t proved_new(uint8_t *sheet, size_t sheet_len);
uint64_t proved_call(const uint8_t *line, size_t line_len, uint8_t *sheet, size_t sheet_len,
                     uint8_t *answer, size_t answer_len);

/* Above this length buffers are not copied: the faults in lengths need no copy. */
#define MOST ((size_t)1 << 20)

#define STATE static _Thread_local

/* The fault's name, by which the script knows that a program has it and no other. */
#define TEXT(name) #name
#define PLANTED(name) "planted: " TEXT(name) ";"

static const char planted[] = PLANTED(FAULT);

static uint8_t *copied(const uint8_t *bytes, size_t length)
{
    uint8_t *copy = (uint8_t *)malloc(length + 1);

    if (copy == NULL) {
        abort();
    }
    memcpy(copy, bytes, length);
    return copy;
}

/* Where the byte stands first, or the length. */
static size_t place(const uint8_t *bytes, size_t length, uint8_t byte)
{
    size_t at = 0;

    while (at < length && bytes[at] != byte) {
        at++;
    }
    return at;
}

static size_t smaller(size_t one, size_t other)
{
    return one < other ? one : other;
}

static int begins(const uint8_t *bytes, size_t length, const char *text)
{
    return length >= strlen(text) && memcmp(bytes, text, strlen(text)) == 0;
}

static void zeros_behind_zero(uint8_t *bytes, size_t length)
{
    size_t end = place(bytes, length, 0);

    memset(bytes + end, 0, length - end);
}

static void text_put(uint8_t *bytes, size_t length, const char *text)
{
    memcpy(bytes, text, smaller(length, strlen(text)));
}

/* What is returned for the sheet alone: 5 where it is not taken. */
static uint64_t asked(const uint8_t *sheet, size_t sheet_len)
{
    size_t length = sheet_len < TEMSROI_SHEET_BYTES ? TEMSROI_SHEET_BYTES : sheet_len;
    uint8_t *whole = (uint8_t *)calloc(length, 1);
    uint8_t answer[TEMSROI_ANSWER_BYTES];
    uint64_t number;

    if (whole == NULL) {
        abort();
    }
    memcpy(whole, sheet, sheet_len);
    number = proved_call((const uint8_t *)"(stats)", 7, whole, length, answer, sizeof answer);
    free(whole);
    return number;
}

/* Changes a sheet before it is read, in a way that makes other bytes be taken. */
static void read_otherwise(uint8_t *sheet, size_t sheet_len)
{
    size_t end = place(sheet, sheet_len, 0);
    size_t at;

    if (FAULT == sheet_past_zero && end + 1 < sheet_len) {
        memmove(sheet + end, sheet + end + 1, sheet_len - end - 1);
    }
    if (FAULT == sheet_feeds_dropped) {
        while (end > 1 && sheet[end - 1] == '\n' && sheet[end - 2] == '\n') {
            sheet[--end] = 0;
        }
    }
    if (FAULT == sheet_case_dropped) {
        for (at = 0; at < end; at++) {
            if (sheet[at] >= 'A' && sheet[at] <= 'Z') {
                sheet[at] = (uint8_t)(sheet[at] - 'A' + 'a');
            }
        }
    }
}

/* Faults in place of the call: they make one of their own, or none. True where there was one. */
static int instead(const uint8_t *line, size_t line_len, uint8_t *sheet, size_t sheet_len,
                   uint8_t *answer, size_t answer_len, uint64_t *number)
{
    static uint8_t shared_sheet[TEMSROI_SHEET_BYTES];
    static uint8_t shared_answer[TEMSROI_ANSWER_BYTES];
    static uint8_t shared_line[TEMSROI_ANSWER_BYTES];
    uint8_t own_sheet[TEMSROI_SHEET_BYTES] = {0};
    uint8_t own_answer[TEMSROI_ANSWER_BYTES] = {0};
    uint8_t *copy;

    switch (FAULT) {
    case answer_512_short:
        *number = TEMSROI_SHORT_BUFFER;
        return answer_len == TEMSROI_ANSWER_BYTES;
    case sheet_4096_short:
        *number = TEMSROI_SHORT_BUFFER;
        return sheet_len == TEMSROI_SHEET_BYTES;
    case long_line_short:
        *number = TEMSROI_SHORT_BUFFER;
        return line_len > 512;
    case answer_511_taken:
    case short_answer_taken:
        if (answer_len >= TEMSROI_ANSWER_BYTES
            || (FAULT == answer_511_taken && answer_len != 511)) {
            return 0;
        }
        memcpy(own_answer, answer, answer_len);
        *number = proved_call(line, line_len, sheet, sheet_len, own_answer, sizeof own_answer);
        memcpy(answer, own_answer, answer_len);
        return 1;
    case sheet_4095_taken:
        if (sheet_len != 4095) {
            return 0;
        }
        memcpy(own_sheet, sheet, sheet_len);
        *number = proved_call(line, line_len, own_sheet, sizeof own_sheet, answer, answer_len);
        memcpy(sheet, own_sheet, sheet_len);
        return 1;
    case five_before_four:
        *number = TEMSROI_SHEET_NOT_TAKEN;
        return asked(sheet, sheet_len) == TEMSROI_SHEET_NOT_TAKEN;
    case sheet_unanswered:
        if (answer_len < TEMSROI_ANSWER_BYTES || line_len != 7 || !begins(line, 7, "(sheet)")) {
            return 0;
        }
        *number = proved_call(line, line_len, sheet, sheet_len, own_answer, sizeof own_answer);
        return 1;
    case sheet_past_zero:
    case sheet_feeds_dropped:
    case sheet_case_dropped:
        copy = copied(sheet, sheet_len);
        read_otherwise(copy, sheet_len);
        *number = proved_call(line, line_len, copy, sheet_len, answer, answer_len);
        if (*number == TEMSROI_DONE) {
            memcpy(sheet, copy, sheet_len);
        }
        free(copy);
        return 1;
    case sheet_shared:
        if (sheet_len != TEMSROI_SHEET_BYTES) {
            return 0;
        }
        memcpy(shared_sheet, sheet, sheet_len);
        *number = proved_call(line, line_len, shared_sheet, sheet_len, answer, answer_len);
        memcpy(sheet, shared_sheet, sheet_len);
        return 1;
    case answer_shared:
        if (answer_len != TEMSROI_ANSWER_BYTES) {
            return 0;
        }
        memcpy(shared_answer, answer, answer_len);
        *number = proved_call(line, line_len, sheet, sheet_len, shared_answer, answer_len);
        memcpy(answer, shared_answer, answer_len);
        return 1;
    case line_shared:
        if (line_len > sizeof shared_line) {
            return 0;
        }
        memcpy(shared_line, line, line_len);
        *number = proved_call(shared_line, line_len, sheet, sheet_len, answer, answer_len);
        return 1;
    default:
        return 0;
    }
}

/* Faults after the call: old_sheet and old_answer are what the buffers held before it. */
static uint64_t afterwards(uint64_t number, const uint8_t *line, size_t line_len,
                           uint8_t *sheet, size_t sheet_len, uint8_t *answer, size_t answer_len,
                           const uint8_t *old_sheet, const uint8_t *old_answer)
{
    int done = number == TEMSROI_DONE;
    size_t feed = done ? place(answer, answer_len, '\n') : 0;
    size_t end = done ? place(sheet, sheet_len, 0) : 0;
    int no_call = begins(answer, feed, "(refused 1)");

    if (number == TEMSROI_SHORT_BUFFER && FAULT == sheet_written_on_4) {
        zeros_behind_zero(sheet, sheet_len);
    }
    if (number == TEMSROI_SHORT_BUFFER && FAULT == answer_written_on_4) {
        text_put(answer, answer_len, "(refused 4)\n");
    }
    if (number == TEMSROI_SHEET_NOT_TAKEN && FAULT == sheet_written_on_5) {
        zeros_behind_zero(sheet, sheet_len);
    }
    if (number == TEMSROI_SHEET_NOT_TAKEN && FAULT == answer_written_on_5) {
        text_put(answer, answer_len, "(refused 5)\n");
    }
    if (number == TEMSROI_SHEET_NOT_TAKEN && FAULT == five_as_four) {
        return TEMSROI_SHORT_BUFFER;
    }
    if (!done) {
        return number;
    }
    switch (FAULT) {
    case refusal_returned:
        return no_call ? 1 : number;
    case refusal_16_returned:
        return begins(answer, feed, "(refused 16)") ? 16 : number;
    case sheet_written_back:
        memcpy(sheet, old_sheet, place(old_sheet, sheet_len, 0));
        zeros_behind_zero(sheet, sheet_len);
        break;
    case zeros_one_only:
        memcpy(sheet + end + 1, old_sheet + end + 1, sheet_len - end - 1);
        break;
    case zeros_to_4096:
        memcpy(sheet + TEMSROI_SHEET_BYTES, old_sheet + TEMSROI_SHEET_BYTES,
               sheet_len - TEMSROI_SHEET_BYTES);
        break;
    case zeros_to_the_last:
        sheet[sheet_len - 1] = old_sheet[sheet_len - 1];
        break;
    case zeros_from_4097:
        if (sheet_len > TEMSROI_SHEET_BYTES) {
            memcpy(sheet + end + 1, old_sheet + end + 1, TEMSROI_SHEET_BYTES - end - 1);
        }
        break;
    case answer_zero_byte:
        answer[feed + 1] = 0;
        break;
    case answer_zeros:
        memset(answer + feed + 1, 0, answer_len - feed - 1);
        break;
    case answer_last_byte:
        answer[answer_len - 1] = 0;
        break;
    case feed_missing:
        answer[feed] = 0;
        break;
    case feed_two_bytes:
        answer[feed] = '\r';
        answer[feed + 1] = '\n';
        break;
    case behind_sheet_written:
        sheet[sheet_len] = 0;
        break;
    case before_sheet_written:
        sheet[-1] = 0;
        break;
    case behind_answer_written:
        answer[answer_len] = 0;
        break;
    /* Other lines may stand where nothing can be written: that would be found without a test. */
    case behind_line_written:
        if (no_call) {
            ((uint8_t *)(uintptr_t)line)[line_len] = 0;
        }
        break;
    case line_written:
        if (no_call && line_len > 0) {
            ((uint8_t *)(uintptr_t)line)[line_len - 1] = 0;
        }
        break;
    case refusal_keeps_sheet:
        if (no_call) {
            memcpy(sheet, old_sheet, sheet_len);
        }
        break;
    case refusal_keeps_answer:
        if (no_call) {
            memcpy(answer, old_answer, answer_len);
        }
        break;
    case sheet_answered_by_sheet:
        if (line_len == 7 && begins(line, line_len, "(sheet)")) {
            memcpy(answer, sheet, smaller(end, answer_len));
        }
        break;
    default:
        break;
    }
    return number;
}

/* The buffer and the sheet of this thread's last call, and its line. */
STATE uint8_t last_sheet[TEMSROI_SHEET_BYTES];
STATE const uint8_t *last_pointer;
STATE uint8_t last_line[TEMSROI_ANSWER_BYTES];
STATE size_t last_line_len;

static void keep(const uint8_t *sheet)
{
    memcpy(last_sheet, sheet, sizeof last_sheet);
    last_pointer = sheet;
}

uint64_t temsroi_call(const uint8_t *line, size_t line_len, uint8_t *sheet, size_t sheet_len,
                      uint8_t *answer, size_t answer_len)
{
    volatile uint8_t *byte;
    uint8_t *old_sheet, *old_answer, *pointer;
    size_t length, at;
    uint64_t number;

    /* Faults in what the proved function is given. */
    switch (FAULT) {
    case line_cut_8:
        line_len = (uint8_t)line_len;
        break;
    case line_cut_16:
        line_len = (uint16_t)line_len;
        break;
    case line_cut_32:
        line_len = (uint32_t)line_len;
        break;
    case sheet_cut_16:
        sheet_len = (uint16_t)sheet_len;
        break;
    case sheet_cut_32:
        sheet_len = (uint32_t)sheet_len;
        break;
    case answer_cut_16:
        answer_len = (uint16_t)answer_len;
        break;
    case answer_cut_32:
        answer_len = (uint32_t)answer_len;
        break;
    case lengths_exchanged:
        length = sheet_len;
        sheet_len = answer_len;
        answer_len = length;
        break;
    case line_sheet_exchanged:
        length = line_len;
        line_len = sheet_len;
        sheet_len = length;
        break;
    case line_answer_exchanged:
        length = line_len;
        line_len = answer_len;
        answer_len = length;
        break;
    case buffers_exchanged:
        pointer = sheet;
        sheet = answer;
        answer = pointer;
        break;
    default:
        break;
    }
    if (FAULT == zeros_cut_32 && (uint32_t)sheet_len >= TEMSROI_SHEET_BYTES) {
        sheet_len = (uint32_t)sheet_len;
    }
    if (FAULT <= buffers_exchanged || sheet_len > MOST || answer_len > MOST) {
        return proved_call(line, line_len, sheet, sheet_len, answer, answer_len);
    }

    /* Faults in what is read. */
    switch (FAULT) {
    case zeros_taken:
        for (at = 0; at < sheet_len && sheet[at] == 0; at++) {
        }
        if (at == sheet_len && answer_len >= TEMSROI_ANSWER_BYTES) {
            proved_new(sheet, sheet_len);
        }
        break;
    case line_to_feed:
        line_len = place(line, line_len, '\n');
        break;
    case line_feed_dropped:
        if (line_len > 0 && line[line_len - 1] == '\n') {
            line_len--;
        }
        break;
    case line_to_zero:
        line_len = place(line, line_len, 0);
        break;
    case line_spaces_dropped:
        while (line_len > 0 && line[line_len - 1] == ' ') {
            line_len--;
        }
        break;
    case before_line_read:
        if (line[-1] == '(') {
            line--;
            line_len++;
        }
        break;
    case behind_line_read:
        (void)*(const volatile uint8_t *)(line + line_len);
        break;
    case behind_sheet_read:
        (void)*(const volatile uint8_t *)(sheet + sheet_len);
        break;
    case behind_answer_read:
        (void)*(const volatile uint8_t *)(answer + answer_len);
        break;
    case answer_decides:
        /* It writes what is there: only valgrind can tell that the byte decides. */
        byte = answer;
        if (answer_len > 0 && *byte == 0) {
            *byte = 0;
        }
        break;
    case sheet_rest_decides:
        byte = sheet + sheet_len - 1;
        if (sheet_len >= TEMSROI_SHEET_BYTES && *byte == 0) {
            *byte = 0;
        }
        break;
    case sheet_kept:
    case sheet_kept_by_pointer:
        if (last_pointer != NULL && sheet_len >= TEMSROI_SHEET_BYTES
            && (FAULT == sheet_kept || last_pointer == sheet)) {
            memcpy(sheet, last_sheet, sizeof last_sheet);
        }
        break;
    case line_kept:
        if (line_len == 0) {
            line = last_line;
            line_len = last_line_len;
        } else if (line_len <= sizeof last_line) {
            memcpy(last_line, line, line_len);
            last_line_len = line_len;
        }
        break;
    default:
        break;
    }

    if (instead(line, line_len, sheet, sheet_len, answer, answer_len, &number)) {
        return number;
    }
    old_sheet = copied(sheet, sheet_len);
    old_answer = copied(answer, answer_len);
    number = proved_call(line, line_len, sheet, sheet_len, answer, answer_len);
    number = afterwards(number, line, line_len, sheet, sheet_len, answer, answer_len,
                        old_sheet, old_answer);
    free(old_sheet);
    free(old_answer);
    if (number == TEMSROI_DONE) {
        keep(sheet);
    }
    return number;
}

uint64_t temsroi_new(uint8_t *sheet, size_t sheet_len)
{
    uint8_t own[TEMSROI_SHEET_BYTES];
    uint8_t *old;
    size_t end;
    uint64_t number;

    /* Read, so that it is not left out. */
    (void)*(const volatile char *)planted;
    if (FAULT == new_cut_16) {
        sheet_len = (uint16_t)sheet_len;
    }
    if (FAULT == new_cut_32) {
        sheet_len = (uint32_t)sheet_len;
    }
    if (FAULT == new_4096_short && sheet_len == TEMSROI_SHEET_BYTES) {
        return TEMSROI_SHORT_BUFFER;
    }
    if (FAULT == new_4095_taken && sheet_len == 4095) {
        number = proved_new(own, sizeof own);
        memcpy(sheet, own, sheet_len);
        return number;
    }
    if (sheet_len > MOST) {
        return proved_new(sheet, sheet_len);
    }
    old = copied(sheet, sheet_len);
    number = proved_new(sheet, sheet_len);
    end = number == TEMSROI_DONE ? place(sheet, sheet_len, 0) : 0;
    if (number == TEMSROI_DONE) {
        switch (FAULT) {
        case new_no_zeros:
            memcpy(sheet + end + 1, old + end + 1, sheet_len - end - 1);
            break;
        case new_zeros_to_4096:
            memcpy(sheet + TEMSROI_SHEET_BYTES, old + TEMSROI_SHEET_BYTES,
                   sheet_len - TEMSROI_SHEET_BYTES);
            break;
        case new_zeros_to_the_last:
            sheet[sheet_len - 1] = old[sheet_len - 1];
            break;
        case new_only_zeros:
            memset(sheet, 0, sheet_len);
            break;
        case new_behind_written:
            sheet[sheet_len] = 0;
            break;
        default:
            break;
        }
        keep(sheet);
    } else if (FAULT == new_short_done) {
        number = TEMSROI_DONE;
    } else if (FAULT == new_short_written) {
        text_put(sheet, sheet_len, "(count 0 0 0 0 0 0 0 0 0)\n");
    }
    free(old);
    return number;
}
