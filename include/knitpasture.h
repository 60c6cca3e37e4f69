/* Knitpasture: one S3 bucket with Object Lock, served line by line. A locked file stays, unaltered, until its date.
 *
 * The caller lends every buffer and keeps it between calls. The library allocates nothing, keeps nothing between calls
 * and has no data of its own, so that threads may serve different buckets at once; calls on one bucket take turns.
 * No buffer may overlap another of the same call, and no pointer may be null, not even with a length of 0. Buffers of
 * any contents and lengths are safe to pass: what doesn't fit is refused, and then nothing is altered.
 *
 * A bucket of capacity c, 1 to KNITPASTURE_MAX_ROWS rows, is three buffers, which may be saved and loaded as they are:
 *
 *   settings  KNITPASTURE_SETTINGS_BYTES: bucket time, used rows, next version number, default retention (mode, count,
 *             unit), then eight rules, each a prefix of 64 bytes, current days and noncurrent days
 *   rows      c * KNITPASTURE_ROW_BYTES: for each row version number, kind, creation instant, body number, length, mode,
 *             retain-until date, hold
 *   keys      c * KNITPASTURE_KEY_BYTES: for each row the key's length in one byte, the key, then zeros
 *
 * Numbers in the buffers are 8 bytes each, little-endian. The archive is compiled for x86-64 Linux; of the C library it
 * needs memcpy, memmove and memset. docs/C.md has a complete example, docs/FORMATS.md the layouts, lines and answers. */
#ifndef KNITPASTURE_H
#define KNITPASTURE_H

#include <stddef.h>
#include <stdint.h>

#ifdef __cplusplus
extern "C" {
#endif

#define KNITPASTURE_VERSION "1.7.1"
#define KNITPASTURE_VERSION_MAJOR 1
#define KNITPASTURE_VERSION_MINOR 7
#define KNITPASTURE_VERSION_PATCH 1

#define KNITPASTURE_SETTINGS_BYTES 688
#define KNITPASTURE_ROW_BYTES 64
#define KNITPASTURE_ROW_WORDS 8
#define KNITPASTURE_KEY_BYTES 64
#define KNITPASTURE_MAX_ROWS 1024
#define KNITPASTURE_MIN_ANSWER 256
#define KNITPASTURE_MAX_LINE 512
#define KNITPASTURE_MAX_COUNT 1000 /* of a LIST */

/* The answer buffer that a LIST with this count needs, in bytes. */
#define KNITPASTURE_PAGE_ROOM(count) (KNITPASTURE_MIN_ANSWER + 256 * (size_t)(count))

/* The stack that a call may take, in bytes, whatever c is. Rows as bytes are read into room for the largest table. */
#define KNITPASTURE_STACK_SERVE 77824
#define KNITPASTURE_STACK_SERVE_WORDS 10240
#define KNITPASTURE_STACK_SERVE_LENT 10240
#define KNITPASTURE_STACK_KEY 69632
#define KNITPASTURE_STACK_FRESH 1024

/* What serving a line returns. The refusals are checked in this order, 13 after 5; the first that holds is returned. */
enum knitpasture_result {
    KNITPASTURE_ACCEPTED = 0,
    KNITPASTURE_UNSOUND = 1,
    KNITPASTURE_SHORT_ANSWER = 2,
    KNITPASTURE_UNREADABLE = 3,
    KNITPASTURE_HALF_GIVEN = 4,
    KNITPASTURE_NO_RIGHT = 5,
    KNITPASTURE_SHORT_PAGE = 13,
    KNITPASTURE_PAST_DATE = 6,
    KNITPASTURE_NO_ROW = 7,
    KNITPASTURE_MARKER = 8,
    KNITPASTURE_LOCKED = 9,
    KNITPASTURE_DATE_TOO_LATE = 10,
    KNITPASTURE_NUMBERS_SPENT = 11,
    KNITPASTURE_TABLE_FULL = 12
};

/* A result in words; "unknown" for any other number. */
static inline const char *knitpasture_refusal_text(uint64_t number) {
    switch (number) {
    case KNITPASTURE_ACCEPTED: return "the line is accepted";
    case KNITPASTURE_UNSOUND: return "the buffers' lengths don't fit one capacity, or settings and table aren't sound";
    case KNITPASTURE_SHORT_ANSWER: return "the answer buffer has fewer than 256 bytes";
    case KNITPASTURE_UNREADABLE: return "the line can't be read, or a field is outside its range";
    case KNITPASTURE_HALF_GIVEN: return "exactly one of mode and date (or period) is given";
    case KNITPASTURE_NO_RIGHT: return "a needed right is missing";
    case KNITPASTURE_SHORT_PAGE: return "the answer buffer has fewer than 256 + 256 * count bytes";
    case KNITPASTURE_PAST_DATE: return "a given date is not after now";
    case KNITPASTURE_NO_ROW: return "the named key or version has no row";
    case KNITPASTURE_MARKER: return "the named version is a delete marker";
    case KNITPASTURE_LOCKED: return "the version is locked, or its retention doesn't admit the change";
    case KNITPASTURE_DATE_TOO_LATE: return "a date from the default retention would be after the last instant";
    case KNITPASTURE_NUMBERS_SPENT: return "the line needs more version numbers than are left";
    case KNITPASTURE_TABLE_FULL: return "the table has no row left for the line";
    default: return "unknown";
    }
}

/* Makes the three buffers a fresh bucket of capacity c, rows and keys being 64 * c bytes each.
 * Returns 0, or 1 with every byte as it was where the lengths don't fit one c from 1 to KNITPASTURE_MAX_ROWS. */
uint64_t knitpasture_fresh(uint8_t *settings, size_t settings_length,
                           uint8_t *rows, size_t rows_length,
                           uint8_t *keys, size_t keys_length);

/* Serves one request line on the bucket. The line is passed without its line feed; one of more than
 * KNITPASTURE_MAX_LINE bytes is refused as unreadable. Returns 0 or the refusal.
 *
 * Where it returns 0 the bucket's buffers are those after the line, and the answer stands at the start of the answer
 * buffer; the bytes after it are untouched. Otherwise every byte of every buffer is as it was.
 *
 * The answer to every verb but LIST is one line: it ends with its first line feed (0x0A), within the first
 * KNITPASTURE_MIN_ANSWER bytes. The answer to LIST is a page, within the first KNITPASTURE_PAGE_ROOM(count) bytes: its
 * first line is `ok`, a tab and the number of rows, then comes a line for each row, each ended by a line feed, and the
 * answer ends with the line feed of the last of them, or of the first line where there are no rows. The fields of a LIST
 * are prefix, key, version and count: the first has an empty key and version 0, the next takes the key and the version
 * of the page's last line, byte for byte, and a page of fewer rows than its count is the last.
 *
 * REPORT, whose field is a prefix, answers `ok` and four numbers of the rows that LIST's pages of that prefix show: data
 * versions, delete markers, the sum of the data versions' lengths, which needs 64 bits, and the data versions that are
 * locked at the line's now for one without bypass.
 *
 * A PUT may be sent again, the same bytes, after a lost reply, as long as no other line has changed the key's current
 * version. Where that version is data with the line's body number and length, the PUT is a retry: it answers that
 * version's number and adds no row, so that a full table accepts it too. So a new file needs a body number of its own:
 * with the current version's number and length it is answered like a retry, and no version is made. A retry places no
 * lock, whatever mode, date and hold it gives, and its answer doesn't tell; GET shows the lock, RETAIN and HOLD set it.
 * The refusals up to KNITPASTURE_PAST_DATE stand as for any PUT, so a date that has passed since the line was first sent
 * is refused.
 *
 * Version numbers are 1 to 18446744073709551614, so that they need 64 bits. A bucket that a release before 1.7.0 left is
 * served on as it is, its locks too; where such a release had spent its numbers, at 4294967295, they go on from there.
 *
 * A default retention of years ends in the later year at the same month, day and time of day (UTC), from 29 February on
 * 28 February where the later year has none; one of days is of 86400 seconds each. A default that a release before 1.5.0
 * stored is counted so from now on; dates that are stored stay.
 *
 * Nothing happens at midnight by itself: a SWEEP marks and removes what has expired by its now. A rule's days are added
 * to the version's creation, or for a version that isn't current to the next newer one's, and the sum is rounded up to
 * the next midnight UTC; a sum at midnight stays. The dates of locks, given or by the default, are not rounded. */
uint64_t knitpasture_serve(uint8_t *settings, size_t settings_length,
                           uint8_t *rows, size_t rows_length,
                           uint8_t *keys, size_t keys_length,
                           const uint8_t *line, size_t line_length,
                           uint8_t *answer, size_t answer_length);

/* The same as knitpasture_serve, and where it returns 0 it writes to *comparisons how often the line compared the prefix
 * of a rule with a key: for a SWEEP the rules that are set times the different keys of the used rows before the line,
 * for any other verb 0. Where it returns a refusal *comparisons is as it was. */
uint64_t knitpasture_serve_counted(uint8_t *settings, size_t settings_length,
                                   uint8_t *rows, size_t rows_length,
                                   uint8_t *keys, size_t keys_length,
                                   const uint8_t *line, size_t line_length,
                                   uint8_t *answer, size_t answer_length,
                                   uint64_t *comparisons);

/* The length of the key of the row at a position, counted from 0; 0 where the row isn't used or the bucket isn't sound.
 * The key itself is as many bytes from KNITPASTURE_KEY_AT(keys, position) on, without a zero at its end. */
size_t knitpasture_key(const uint8_t *settings, size_t settings_length,
                       const uint8_t *rows, size_t rows_length,
                       const uint8_t *keys, size_t keys_length,
                       size_t position);

#define KNITPASTURE_KEY_AT(keys, position) ((keys) + KNITPASTURE_KEY_BYTES * (size_t)(position) + 1)

/* The same as knitpasture_fresh and knitpasture_serve, with the rows as 8 * c numbers in the host's order, altered in
 * place: less stack, and no decoding. On this archive's hosts the numbers are the rows' bytes. */
uint64_t knitpasture_fresh_words(uint8_t *settings, size_t settings_length,
                                 uint64_t *rows, size_t rows_count,
                                 uint8_t *keys, size_t keys_length);

uint64_t knitpasture_serve_words(uint8_t *settings, size_t settings_length,
                                 uint64_t *rows, size_t rows_count,
                                 uint8_t *keys, size_t keys_length,
                                 const uint8_t *line, size_t line_length,
                                 uint8_t *answer, size_t answer_length);

/* The settings as numbers too; their bytes in memory are those of the settings buffer. */
struct knitpasture_rule {
    uint8_t prefix[KNITPASTURE_KEY_BYTES];
    uint64_t current_days;
    uint64_t noncurrent_days;
};

struct knitpasture_settings {
    uint64_t time;
    uint64_t used;
    uint64_t next;
    uint64_t mode;
    uint64_t count;
    uint64_t unit;
    struct knitpasture_rule rules[8];
};

/* The same as knitpasture_serve_words, with the settings as a struct. */
uint64_t knitpasture_serve_lent(struct knitpasture_settings *settings,
                                uint64_t *rows, size_t rows_count,
                                uint8_t *keys, size_t keys_length,
                                const uint8_t *line, size_t line_length,
                                uint8_t *answer, size_t answer_length);

#ifdef __cplusplus
}
#endif

#endif
