/*
 * The head driver, proved in Rattle, as a C library.
 *
 * A driver follows a chain's newest blocks and says of each whether its values are loaded or have
 * to be fetched. docs/HEADSCRIPT.md has its calls and answers, all of them lines. A driver is its
 * state sheet, which stands in a buffer of yours: begin with temsroi_new, then give the buffer to
 * every temsroi_call.
 *
 * Link with libtemsroi.a. The archive is for x86-64 Linux, x86-64-v2 or newer.
 *
 * Buffers
 *   A pointer is not null, also where its length is 0. (C++: an empty std::string_view may have a
 *   null pointer: pass "" instead.) It points to as many bytes as its length says. All of the three
 *   may be read; the sheet and the answer are also written. No length is above 2^63 - 1
 *   (PTRDIFF_MAX). The sheet buffer and the answer buffer do not overlap, and the line overlaps
 *   neither of them.
 *
 * Sheets
 *   To keep a sheet, keep its bytes up to the first zero byte: there always is one. To go on from
 *   it, copy these bytes to the front of a buffer and put a zero byte behind them, or what stood
 *   there before is read as part of the sheet. The sheet is written in place: if the process dies
 *   in a call, what stands in a shared mapping may be neither the old sheet nor the new one.
 *
 * Answers
 *   Read the answer up to its line feed: it is no C string, and bytes of an older answer may stand
 *   behind it. The sheet is a C string.
 *
 * Threads
 *   Nothing is kept between calls, no memory is allocated, and there is no lock and no thread.
 *   Calls with different buffers may run at the same time on any threads. Calls with the same
 *   buffer may not: put a lock around each whole call.
 *
 * A call uses under 32 KiB of stack. It throws nothing, calls nothing of yours and has no unwind
 * tables.
 */
#ifndef TEMSROI_H
#define TEMSROI_H

#include <stddef.h>
#include <stdint.h>

/*
 * The fewest bytes of a sheet buffer and of an answer buffer. Every sheet and every answer is
 * shorter.
 */
#define TEMSROI_SHEET_BYTES 4096
#define TEMSROI_ANSWER_BYTES 512

/* The numbers that are returned. */
#define TEMSROI_DONE 0
#define TEMSROI_SHORT_BUFFER 4
#define TEMSROI_SHEET_NOT_TAKEN 5

/* A returned number that nobody looks at is a warning, where the compiler can give it. */
#ifdef __GNUC__
#define TEMSROI_RESULT __attribute__((warn_unused_result))
#else
#define TEMSROI_RESULT
#endif

#ifdef __cplusplus
extern "C" {
#endif

/*
 * Writes the sheet of a new driver, and zero bytes behind it to the buffer's end, and returns 0.
 * Returns 4 where the buffer has under 4,096 bytes, and then keeps every byte of it.
 */
TEMSROI_RESULT
uint64_t temsroi_new(uint8_t *sheet, size_t sheet_len);

/*
 * Makes the call that the line is on the driver that the sheet gives.
 *
 * The line is given without its line feed. A line feed inside it is refusal 1, as any other byte
 * that no call has; so are an empty line and one of more than 512 bytes. The sheet is the bytes of
 * its buffer up to the first zero byte, or to the buffer's end.
 *
 * Returns
 *   4  where the sheet buffer has under 4,096 bytes or the answer buffer under 512;
 *   5  else, where the bytes are no sheet that is taken (docs/HEADSCRIPT.md, "Putting a box
 *      back"); a buffer of zeros is none;
 *   0  else. The sheet buffer then has the new sheet and zero bytes behind it to its end, and the
 *      answer buffer has the answer line with its line feed at its front and keeps the bytes after
 *      it. A refusal by any other number is an answer too: the line (refused N ..). The call
 *      (sheet) answers (done): the sheet stands in its buffer.
 *
 * On 4 and on 5 all buffers keep every byte.
 */
TEMSROI_RESULT
uint64_t temsroi_call(const uint8_t *line, size_t line_len,
                      uint8_t *sheet, size_t sheet_len,
                      uint8_t *answer, size_t answer_len);

#ifdef __cplusplus
}
#endif

#endif
