/* mcsim for C: a whole command line over files in memory, and each engine by itself, over the caller's buffers.
 *
 * What a caller owes, which nothing checks:
 * - no pointer is null, also where its length is 0;
 * - the buffers that a call writes (out, err, file, count, lengths) lie apart from each other and from all that it reads;
 * - malloc, realloc and free are those of one allocator, and no call is made from a signal handler.
 *
 * What it need not mind: any bytes, numbers, words and lengths may be given. What is no layout, no image, no schedule that can occur,
 * or too long, is refused. A buffer gets as much as fits, and the length that is told is that of the whole text, so that a caller can
 * ask again with more room. A call keeps nothing. Calls on several threads at once are apart from each other.
 *
 * That each function does what is said here, up to the bytes in the caller's buffer, is proved of the model (docs/LIBRARY.md). */
#ifndef MCSIM_H
#define MCSIM_H

#include <stdbool.h>
#include <stddef.h>
#include <stdint.h>

/* The status that every call returns: what the program's exit status is. */
enum {
    MCSIM_DONE = 0,    /* the text is there */
    MCSIM_REFUSED = 1, /* a content is refused: an image, a flash, a schedule that can't occur */
    MCSIM_WORDS = 2,   /* the numbers or words are refused */
    MCSIM_FAILED = 3   /* memory failed */
};

/* What the bytes of a source are. */
enum {
    MCSIM_NONE = 0,   /* two images, and no swap is asked for */
    MCSIM_TEST = 1,   /* two images, and the second is to be tried */
    MCSIM_PERM = 2,   /* two images, and the second is to stay */
    MCSIM_REVERT = 3, /* two images: the first is on trial, and the second, which it replaced, is to come back */
    MCSIM_FLASH = 4   /* a flash: the bytes of the primary slot, then those of the secondary */
};

/* A layout, the rules of the boots, and what the bytes are. */
struct mcsim_source {
    uint32_t sector, unit, max_sectors, chunk, primary, secondary; /* the six numbers of a layout */
    uint32_t grain;                                                /* 0: whole calls happen or not; 1: single units */
    uint32_t profile;                                              /* 1, 2 or 3 */
    uint32_t kind;                                                 /* MCSIM_NONE .. MCSIM_FLASH */
};

/* How many bytes each output of mcsim_run has, also where its buffer is smaller. */
struct mcsim_lengths {
    uint64_t out, err, file;
};

#ifdef __cplusplus
extern "C" {
#endif

/* Runs a command line: words with a zero byte between them, of which the first is the program's name. Its files are `a`, `b` and `c`,
 * which are read, and `out`, which is written; `input` is standard input. */
uint32_t mcsim_run(const uint8_t *words, size_t words_len, const uint8_t *a, size_t a_len, const uint8_t *b, size_t b_len,
    const uint8_t *c, size_t c_len, const uint8_t *input, size_t input_len, uint8_t *out, size_t out_room, uint8_t *err,
    size_t err_room, uint8_t *file, size_t file_room, struct mcsim_lengths *lengths);

/* Below, `a` and `b` are two images, or `a` is a flash and `b` nothing; `cuts` is a schedule of at most 16 power cuts: for each boot that
 * is cut the number of operations that it made. Where the status is not 0, `out` holds the line of the refusal. */

/* What the boots do, operation by operation, of each boot from one number to another (`mcsim trace`); from 0 to UINT32_MAX is all. */
uint32_t mcsim_trace(const struct mcsim_source *source, const uint8_t *a, size_t a_len, const uint8_t *b, size_t b_len,
    const uint32_t *cuts, size_t cuts_len, uint32_t from, uint32_t to, uint8_t *out, size_t room, uint64_t *count);

/* What lies in each sector (`mcsim sectors`): when the last cut falls, or with `end` what the boot after it leaves; with `all` words
 * or in plain ones. */
uint32_t mcsim_sectors(const struct mcsim_source *source, const uint8_t *a, size_t a_len, const uint8_t *b, size_t b_len,
    const uint32_t *cuts, size_t cuts_len, bool end, bool all, uint8_t *out, size_t room, uint64_t *count);

/* The bytes of both slots when the last cut falls (`mcsim replay --at-cut`); of no cut those of the start. */
uint32_t mcsim_flash_at_cut(const struct mcsim_source *source, const uint8_t *a, size_t a_len, const uint8_t *b, size_t b_len,
    const uint32_t *cuts, size_t cuts_len, uint8_t *out, size_t room, uint64_t *count);

/* The outcome of the uncut boot after the cuts (`mcsim replay`). */
uint32_t mcsim_outcome(const struct mcsim_source *source, const uint8_t *a, size_t a_len, const uint8_t *b, size_t b_len,
    const uint32_t *cuts, size_t cuts_len, uint8_t *out, size_t room, uint64_t *count);

/* The bytes of both slots that it leaves (`mcsim replay --out`). */
uint32_t mcsim_flash_left(const struct mcsim_source *source, const uint8_t *a, size_t a_len, const uint8_t *b, size_t b_len,
    const uint32_t *cuts, size_t cuts_len, uint8_t *out, size_t room, uint64_t *count);

/* What power that is lost within an operation of the uncut boot after the cuts leads to (`mcsim tears`), where an erase fails gently or
 * roughly; with `all` each case, else those that end otherwise than after a cut. */
uint32_t mcsim_tears(const struct mcsim_source *source, const uint8_t *a, size_t a_len, const uint8_t *b, size_t b_len,
    const uint32_t *cuts, size_t cuts_len, bool rough, bool all, uint8_t *out, size_t room, uint64_t *count);

/* What all schedules of at most `bound` cuts come to (`mcsim census`). */
uint32_t mcsim_census(const struct mcsim_source *source, const uint8_t *a, size_t a_len, const uint8_t *b, size_t b_len,
    uint32_t bound, uint8_t *out, size_t room, uint64_t *count);

/* The first `limit` rows of at most `bound` cuts, a line each, with their outcomes (`mcsim explore`): from the first row on, or after
 * the schedule `last`. */
uint32_t mcsim_rows(const struct mcsim_source *source, const uint8_t *a, size_t a_len, const uint8_t *b, size_t b_len, uint32_t bound,
    bool first, const uint32_t *last, size_t last_len, uint32_t limit, uint8_t *out, size_t room, uint64_t *count);

#ifdef __cplusplus
}
#endif
#endif
