/* What modem firmware does, through each entry: lend three buffers, serve lines, send a PUT again, follow pages, ask for
 * totals, save, load and go on, also with what an earlier release left, up to the last version number; and what a sweep
 * counts. */
#include "../../samples/page.h"
#include "../../samples/save.h"

#include <stdint.h>
#include <stdlib.h>
#include <string.h>

enum { JUNK = 0xEE };

/* A request, `|` standing for a tab, and the answer as bucketrun would print it. */
struct step {
    const char *line;
    const char *answer;
};

static unsigned checks;

static void check(int holds, const char *what) {
    if (!holds) {
        fprintf(stderr, "client: not so: %s\n", what);
        exit(1);
    }
    checks++;
}

/* Whether the bytes of an answer buffer from a place on are as they were lent. */
static int untouched(const uint8_t *answer, size_t from, size_t length) {
    while (from < length && answer[from] == JUNK) {
        from++;
    }
    return from >= length;
}

/* How many of the bucket's rows are lent. */
static size_t lent = CAPACITY;

#define SETTINGS(bucket) (bucket)->settings, sizeof (bucket)->settings
#define ROWS(bucket) (bucket)->rows, lent * KNITPASTURE_ROW_BYTES
#define WORDS(bucket) (uint64_t *)(bucket)->rows, lent * KNITPASTURE_ROW_WORDS
#define KEYS(bucket) (bucket)->keys, lent * KNITPASTURE_KEY_BYTES

/* The entries, which take turns by the form of rows and settings, with the one that counts between them. */
static enum { AS_BYTES, COUNTED, AS_WORDS, AS_STRUCT, FORMS } form;

/* What stands where comparisons are counted, and what it is before a line. */
#define BEFORE UINT64_C(0xEEEEEEEEEEEEEEEE)
static uint64_t comparisons = BEFORE;

static uint64_t serve_counted(struct bucket *bucket, const uint8_t *line, size_t count, uint8_t *answer, size_t length) {
    comparisons = BEFORE;
    uint64_t number = knitpasture_serve_counted(SETTINGS(bucket), ROWS(bucket), KEYS(bucket), line, count, answer, length,
                                                &comparisons);
    check((comparisons == BEFORE) == (number != 0), "an accepted line writes its count, a refusal leaves what was there");
    return number;
}

static uint64_t serve_bytes(struct bucket *bucket, const uint8_t *line, size_t count, uint8_t *answer, size_t length) {
    switch (form) {
    case COUNTED:
        return serve_counted(bucket, line, count, answer, length);
    case AS_WORDS:
        return knitpasture_serve_words(SETTINGS(bucket), WORDS(bucket), KEYS(bucket), line, count, answer, length);
    case AS_STRUCT:
        return knitpasture_serve_lent((struct knitpasture_settings *)bucket->settings, WORDS(bucket), KEYS(bucket), line,
                                      count, answer, length);
    default:
        return knitpasture_serve(SETTINGS(bucket), ROWS(bucket), KEYS(bucket), line, count, answer, length);
    }
}

static uint64_t serve(struct bucket *bucket, const char *text, uint8_t *answer, size_t length) {
    uint8_t line[KNITPASTURE_MAX_LINE];
    size_t count = strlen(text);
    check(count <= sizeof line, "the line fits its buffer");
    for (size_t i = 0; i < count; i++) {
        line[i] = text[i] == '|' ? '\t' : (uint8_t)text[i];
    }
    return serve_bytes(bucket, line, count, answer, length);
}

/* Serves one line and compares the answer, the bytes behind it and, after a refusal, the bucket. */
static void take(struct bucket *bucket, const struct step *step) {
    struct bucket before = *bucket;
    uint8_t answer[KNITPASTURE_MIN_ANSWER];
    char said[KNITPASTURE_MIN_ANSWER + 1];
    size_t length = 0;
    memset(answer, JUNK, sizeof answer);
    uint64_t number = serve(bucket, step->line, answer, sizeof answer);
    if (number != 0) {
        length = (size_t)snprintf(said, sizeof said, "no|%llu", (unsigned long long)number);
        check(memcmp(&before, bucket, sizeof before) == 0, "a refusal changes no byte of the bucket");
        check(untouched(answer, 0, sizeof answer), "a refusal writes no answer");
    } else {
        while (length < sizeof answer && answer[length] != '\n') {
            said[length] = answer[length] == '\t' ? '|' : (char)answer[length];
            length++;
        }
        check(length < sizeof answer && untouched(answer, length + 1, sizeof answer), "bytes after an answer are untouched");
        said[length] = '\0';
    }
    if (strcmp(said, step->answer) != 0) {
        fprintf(stderr, "client: %s\n  answered %s\n  expected %s\n", step->line, said, step->answer);
        exit(1);
    }
    checks++;
}

static void take_all(struct bucket *bucket, const struct step *steps, size_t count) {
    for (size_t i = 0; i < count; i++) {
        take(bucket, &steps[i]);
    }
}

#define TAKE(bucket, steps) take_all(bucket, steps, sizeof steps / sizeof steps[0])

static void make_fresh(struct bucket *bucket) {
    memset(bucket, 0x5A, sizeof *bucket);
    check((form == AS_BYTES ? knitpasture_fresh(SETTINGS(bucket), ROWS(bucket), KEYS(bucket))
                            : knitpasture_fresh_words(SETTINGS(bucket), WORDS(bucket), KEYS(bucket))) == 0,
          "a fresh bucket is made");
}

/* Whether the key at a position is the text; the empty text where there is none. */
static int key_is(const struct bucket *bucket, size_t position, const char *text) {
    size_t length = knitpasture_key(SETTINGS(bucket), ROWS(bucket), KEYS(bucket), position);
    return length == strlen(text) && memcmp(KNITPASTURE_KEY_AT(bucket->keys, position), text, length) == 0;
}

/* The document's whole run. */
static void whole_run(struct bucket *bucket) {
    static const struct step run[] = {
        {"2024-03-01T00:00:00Z|c|DEFAULT|COMPLIANCE|1d", "ok"},
        {"2024-03-01T00:00:00Z|w|PUT|q/7|41|300|-|-|-", "ok|1"},
        {"2024-03-01T12:00:00Z|db|DELETE|q/7|1|yes", "no|9"},
        {"2024-03-01T12:00:00Z|d|DELETE|q/7|-|no", "ok|2|marker"},
        {"2024-03-01T06:00:00Z|r|GET|q/7|1", "ok|1|41|300|COMPLIANCE|2024-03-02T00:00:00.000Z|OFF"},
        {"2024-03-02T00:00:00Z|d|DELETE|q/7|1|no", "ok|1|removed"},
        {"2024-03-02T00:00:00Z|r|GET|q/7|-", "no|8"},
    };
    make_fresh(bucket);
    TAKE(bucket, run);
    check(key_is(bucket, 0, "q/7"), "the marker that is left has the key");
    check(key_is(bucket, 1, "") && key_is(bucket, SIZE_MAX, ""), "a row that isn't used has none");
}

/* Takes a PUT twice: sent again, it has the same answer and changes no byte of the bucket. */
static void take_twice(struct bucket *bucket, const struct step *put) {
    take(bucket, put);
    struct bucket once = *bucket;
    take(bucket, put);
    check(memcmp(&once, bucket, sizeof once) == 0, "a PUT that is sent again changes no byte of the bucket");
}

/* A modem that misses its reply sends the PUT again; what differs from the key's current version is a version of its own. */
static void sent_again(struct bucket *bucket) {
    static const struct step puts[] = {
        {"2024-08-01T00:00:00Z|w|PUT|gauge/1|7|70|-|-|-", "ok|1"},
        {"2024-08-01T00:00:00Z|wth|PUT|gauge/2|8|80|COMPLIANCE|2033-01-05T00:00:00Z|ON", "ok|2"},
        {"2024-08-01T00:00:00Z|w|PUT|gauge/1|7|71|-|-|-", "ok|3"},
        {"2024-08-01T00:00:00Z|w|PUT|gauge/1|7|70|-|-|-", "ok|4"},
    };
    static const struct step after[] = {
        {"2024-08-02T00:00:00Z|wth|PUT|gauge/1|7|70|COMPLIANCE|2033-01-05T00:00:00Z|ON", "ok|4"},
        {"2024-08-02T00:00:00Z|r|GET|gauge/1|-", "ok|4|7|70|-|-|OFF"},
        {"2024-08-02T00:00:00Z|wt|PUT|gauge/1|7|70|COMPLIANCE|-|-", "no|4"},
        {"2024-08-02T00:00:00Z|r|PUT|gauge/1|7|70|-|-|-", "no|5"},
        {"2024-08-02T00:00:00Z|wt|PUT|gauge/1|7|70|COMPLIANCE|2024-08-02T00:00:00Z|-", "no|6"},
        {"2024-08-02T00:00:00Z|rw|COPY|gauge/1|-|gauge/1|-|-|-", "ok|5"},
        {"2024-08-02T00:00:00Z|d|DELETE|gauge/1|-|no", "ok|6|marker"},
        {"2024-08-02T00:00:00Z|w|PUT|gauge/1|7|70|-|-|-", "ok|7"},
    };
    make_fresh(bucket);
    for (size_t i = 0; i < sizeof puts / sizeof puts[0]; i++) {
        take_twice(bucket, &puts[i]);
    }
    TAKE(bucket, after);
}

/* In a full table of one row it is accepted too, where whatever adds a row meets 12. */
static void sent_again_full(struct bucket *bucket) {
    lent = 1;
    make_fresh(bucket);
    take_twice(bucket, &(struct step){"2024-08-01T00:00:00Z|w|PUT|gauge/1|7|70|-|-|-", "ok|1"});
    take(bucket, &(struct step){"2024-08-01T00:00:00Z|w|PUT|gauge/1|7|71|-|-|-", "no|12"});
    take(bucket, &(struct step){"2024-08-01T00:00:00Z|rw|COPY|gauge/1|-|gauge/1|-|-|-", "no|12"});
    lent = CAPACITY;
}

/* Where the next version number and the default retention stand in the settings. */
enum { NEXT_NUMBER = 16, DEFAULT_MODE = 24, DEFAULT_COUNT = 32, DEFAULT_UNIT = 40, DEFAULT_BYTES = 24 };

/* A default of one year that an earlier release has set stays as it is and ends by the calendar from now on; the row that
 * got its date from it when a year had 365 days keeps that. */
static void years_from_before(struct bucket *bucket) {
    static const struct step steps[] = {
        {"2024-02-28T12:00:00Z|w|PUT|gauge/1|8|80|-|-|-", "ok|2"},
        {"2024-02-28T12:00:00Z|r|GET|gauge/1|2", "ok|2|8|80|COMPLIANCE|2025-02-28T12:00:00.000Z|OFF"},
        {"2024-02-29T12:00:00Z|w|PUT|gauge/2|9|90|-|-|-", "ok|3"},
        {"2024-02-29T12:00:00Z|r|GET|gauge/2|3", "ok|3|9|90|COMPLIANCE|2025-02-28T12:00:00.000Z|OFF"},
        {"2024-03-01T12:00:00Z|rw|COPY|gauge/2|-|gauge/1|-|-|-", "ok|4"},
        {"2024-03-01T12:00:00Z|r|GET|gauge/1|4", "ok|4|9|90|COMPLIANCE|2025-03-01T12:00:00.000Z|OFF"},
        {"2024-03-01T12:00:00Z|r|GET|gauge/1|1", "ok|1|7|70|COMPLIANCE|2025-02-27T12:00:00.000Z|OFF"},
        {"2025-02-27T11:59:59.999Z|d|DELETE|gauge/1|1|no", "no|9"},
        {"2025-02-27T12:00:00Z|d|DELETE|gauge/1|1|no", "ok|1|removed"},
        {"2025-02-28T11:59:59.999Z|d|DELETE|gauge/2|3|no", "no|9"},
        {"2025-02-28T12:00:00Z|d|DELETE|gauge/2|3|no", "ok|3|removed"},
        {"9998-12-31T23:59:59.999Z|w|PUT|gauge/2|9|90|-|-|-", "ok|5"},
        {"9998-12-31T23:59:59.999Z|r|GET|gauge/2|5", "ok|5|9|90|COMPLIANCE|9999-12-31T23:59:59.999Z|OFF"},
        {"9999-01-01T00:00:00Z|w|PUT|gauge/2|9|91|-|-|-", "no|10"},
    };
    make_fresh(bucket);
    take(bucket, &(struct step){"2024-02-28T12:00:00Z|wt|PUT|gauge/1|7|70|COMPLIANCE|2025-02-27T12:00:00Z|-", "ok|1"});
    bucket->settings[DEFAULT_MODE] = 2;
    bucket->settings[DEFAULT_COUNT] = 1;
    bucket->settings[DEFAULT_UNIT] = 2;
    struct bucket before = *bucket;
    TAKE(bucket, steps);
    check(memcmp(before.settings + DEFAULT_MODE, bucket->settings + DEFAULT_MODE, DEFAULT_BYTES) == 0,
          "a stored default keeps its mode, count and unit");
}

/* A line by the entry that counts, and what then stands where comparisons are counted. */
struct counted_step {
    struct step step;
    uint64_t comparisons;
};

static void take_counted(struct bucket *bucket, const struct counted_step *steps, size_t count) {
    form = COUNTED;
    for (size_t i = 0; i < count; i++) {
        take(bucket, &steps[i].step);
        if (comparisons != steps[i].comparisons) {
            fprintf(stderr, "client: %s\n  counted %llu\n  expected %llu\n", steps[i].step.line,
                    (unsigned long long)comparisons, (unsigned long long)steps[i].comparisons);
            exit(1);
        }
        checks++;
    }
}

#define TAKE_COUNTED(bucket, steps) take_counted(bucket, steps, sizeof steps / sizeof steps[0])

/* An accepted sweep counts the rules set times the different keys, however many rows a key has and whether or not a prefix
 * begins it; every other accepted line counts 0, and a refused one leaves what was there. */
static void sweeps_count(struct bucket *bucket) {
    static const struct counted_step steps[] = {
        {{"2024-09-01T00:00:00Z|c|SWEEP", "ok|0|0"}, 0},
        {{"2024-09-01T00:00:00Z|c|RULE|2|gauge/1|1|1", "ok"}, 0},
        {{"2024-09-01T00:00:00Z|c|SWEEP", "ok|0|0"}, 0},
        {{"2024-09-01T00:00:00Z|w|PUT|gauge/1|7|70|-|-|-", "ok|1"}, 0},
        {{"2024-09-01T00:00:00Z|c|SWEEP", "ok|0|0"}, 1},
        {{"2024-09-01T00:00:00Z|w|PUT|gauge/1|8|80|-|-|-", "ok|2"}, 0},
        {{"2024-09-01T00:00:00Z|c|SWEEP", "ok|0|0"}, 1},
        {{"2024-09-01T00:00:00Z|w|PUT|gauge/2|9|90|-|-|-", "ok|3"}, 0},
        {{"2024-09-01T00:00:00Z|d|DELETE|level|-|no", "ok|4|marker"}, 0},
        {{"2024-09-01T00:00:00Z|c|SWEEP", "ok|0|0"}, 3},
        {{"2024-09-01T00:00:00Z|c|RULE|7|zz|0|36500", "ok"}, 0},
        {{"2024-09-01T00:00:00Z|-|SWEEP", "no|5"}, BEFORE},
        {{"2024-09-01T00:00:00Z|c|SWEEP|", "no|3"}, BEFORE},
        {{"2024-09-01T00:00:00Z|r|GET|gauge/3|-", "no|7"}, BEFORE},
        {{"2024-09-01T00:00:00Z|c|SWEEP", "ok|0|0"}, 6},
        {{"2024-09-02T00:00:00Z|c|SWEEP", "ok|1|1"}, 6},
        {{"2024-09-02T00:00:00Z|c|SWEEP", "ok|0|0"}, 6},
        {{"2024-09-02T00:00:00Z|c|RULE|2|gauge/1|0|0", "ok"}, 0},
        {{"2024-09-02T00:00:00Z|c|SWEEP", "ok|0|0"}, 3},
        {{"2024-09-02T00:00:00Z|r|GET|gauge/2|-", "ok|3|9|90|-|-|OFF"}, 0},
    };
    static const struct counted_step full[] = {
        {{"2024-09-01T00:00:00Z|w|PUT|gauge/1|7|70|-|-|-", "ok|1"}, 0},
        {{"2024-09-01T00:00:00Z|c|RULE|0||1|0", "ok"}, 0},
        {{"2024-09-01T00:00:00Z|c|SWEEP", "ok|0|0"}, 1},
        {{"2024-09-02T00:00:00Z|c|SWEEP", "no|12"}, BEFORE},
    };
    make_fresh(bucket);
    TAKE_COUNTED(bucket, steps);
    lent = 1;
    make_fresh(bucket);
    TAKE_COUNTED(bucket, full);
    lent = CAPACITY;
}

/* A file under COMPLIANCE stays through a reload and goes at its date. */
static void kept_through_reload(struct bucket *bucket, const char *folder) {
    static const struct step before[] = {
        {"2024-04-01T00:00:00Z|wt|PUT|gauge/1|77|4096|COMPLIANCE|2024-05-01T00:00:00Z|-", "ok|1"},
        {"2024-04-02T00:00:00Z|db|DELETE|gauge/1|1|yes", "no|9"},
    };
    static const struct step after[] = {
        {"2024-04-30T23:59:59.999Z|db|DELETE|gauge/1|1|yes", "no|9"},
        {"2024-04-30T23:59:59.999Z|r|GET|gauge/1|-", "ok|1|77|4096|COMPLIANCE|2024-05-01T00:00:00.000Z|OFF"},
        {"2024-05-01T00:00:00Z|d|DELETE|gauge/1|1|no", "ok|1|removed"},
        {"2024-05-01T00:00:00Z|r|GET|gauge/1|1", "no|7"},
    };
    make_fresh(bucket);
    TAKE(bucket, before);
    check(save(bucket, folder, "bucket"), "the bucket is saved");
    memset(bucket, 0, sizeof *bucket);
    check(key_is(bucket, 0, ""), "what isn't sound has no key");
    take(bucket, &(struct step){"2024-05-01T00:00:00Z|d|DELETE|gauge/1|1|no", "no|1"});
    check(load(bucket, folder, "bucket") == 1, "the bucket is loaded");
    check(key_is(bucket, 0, "gauge/1"), "its row has its key");
    TAKE(bucket, after);
}

/* Wrong lengths meet 1, and a short answer buffer meets 2; neither changes a byte. */
static void wrong_lengths(struct bucket *bucket) {
    static const uint8_t sweep[] = "2024-06-01T00:00:00Z\tc\tSWEEP";
    struct bucket before = *bucket;
    uint8_t answer[KNITPASTURE_MIN_ANSWER];
    memset(answer, JUNK, sizeof answer);
    size_t line = sizeof sweep - 1;
    check(knitpasture_serve(bucket->settings, KNITPASTURE_SETTINGS_BYTES - 1, ROWS(bucket), KEYS(bucket), sweep, line,
                            answer, sizeof answer) == 1,
          "settings of 687 bytes meet 1");
    check(knitpasture_serve_words(bucket->settings, KNITPASTURE_SETTINGS_BYTES - 1, WORDS(bucket), KEYS(bucket), sweep,
                                  line, answer, sizeof answer) == 1,
          "with rows as words too");
    comparisons = BEFORE;
    check(knitpasture_serve_counted(bucket->settings, KNITPASTURE_SETTINGS_BYTES - 1, ROWS(bucket), KEYS(bucket), sweep,
                                    line, answer, sizeof answer, &comparisons) == 1,
          "and by the entry that counts");
    check(comparisons == BEFORE, "which then writes no count");
    check(knitpasture_serve(SETTINGS(bucket), bucket->rows, sizeof bucket->rows - KNITPASTURE_ROW_BYTES, KEYS(bucket),
                            sweep, line, answer, sizeof answer) == 1,
          "a row too few meets 1");
    check(knitpasture_fresh(bucket->settings, KNITPASTURE_SETTINGS_BYTES - 1, ROWS(bucket), KEYS(bucket)) == 1,
          "settings of 687 bytes are not made fresh");
    check(knitpasture_fresh_words(SETTINGS(bucket), WORDS(bucket), bucket->keys, sizeof bucket->keys - 1) == 1,
          "nor are keys a byte short");
    check(serve_bytes(bucket, sweep, line, answer, sizeof answer - 1) == 2, "an answer buffer of 255 bytes meets 2");
    check(memcmp(&before, bucket, sizeof before) == 0, "none of them changes a byte");
    check(untouched(answer, 0, sizeof answer), "nor writes an answer");
    take(bucket, &(struct step){"2024-06-01T00:00:00Z|c|SWEEP", "ok|0|0"});
}

#define LONGEST_KEY "kkkkkkkkkkkkkkkkkkkkkkkkkkkkkkkkkkkkkkkkkkkkkkkkkkkkkkkkkkkkkkk"

/* A table of several versions, a marker, each mode, holds, a key that begins others, and the longest line. */
static const struct step filled[] = {
    {"2024-07-01T00:00:00Z|w|PUT|gauge-7/level|41|300|-|-|-", "ok|1"},
    {"2024-07-01T00:00:01.5Z|wt|PUT|gauge-7/flow|42|120|COMPLIANCE|2033-01-05T00:00:00Z|-", "ok|2"},
    {"2024-07-02T00:00:00Z|wh|PUT|gauge-7/level|44|310|-|-|ON", "ok|3"},
    {"2024-07-02T00:00:00Z|d|DELETE|gauge-7/flow|-|no", "ok|4|marker"},
    {"2024-07-02T00:00:00Z|w|PUT|gauge-7|0|0|-|-|-", "ok|5"},
    {"2024-07-03T00:00:00Z|wth|PUT|" LONGEST_KEY
     "|18446744073709551615|5497558138880|GOVERNANCE|9999-12-31T23:59:59.999Z|ON", "ok|6"},
    {"2024-07-03T00:00:00Z|w|PUT|gauge-8/level|45|300|-|-|-", "ok|7"},
    {"2024-07-03T00:00:00Z|w|PUT|gauge-7/level|46|320|-|-|-", "ok|8"},
};

/* Its rows in the table's order, as LIST prints them. */
static const char *const filled_rows[] = {
    "gauge-7|5|data|2024-07-02T00:00:00.000Z|0|0|-|-|OFF",
    "gauge-7/flow|4|marker|2024-07-02T00:00:00.000Z|-|-|-|-|OFF",
    "gauge-7/flow|2|data|2024-07-01T00:00:01.500Z|42|120|COMPLIANCE|2033-01-05T00:00:00.000Z|OFF",
    "gauge-7/level|8|data|2024-07-03T00:00:00.000Z|46|320|-|-|OFF",
    "gauge-7/level|3|data|2024-07-02T00:00:00.000Z|44|310|-|-|ON",
    "gauge-7/level|1|data|2024-07-01T00:00:00.000Z|41|300|-|-|OFF",
    "gauge-8/level|7|data|2024-07-03T00:00:00.000Z|45|300|-|-|OFF",
    LONGEST_KEY "|6|data|2024-07-03T00:00:00.000Z|18446744073709551615|5497558138880|GOVERNANCE|9999-12-31T23:59:59.999Z|ON",
};

/* The rows that pages are to show. */
static const char *const *shown;
static size_t shown_rows;

#define SHOW(rows) (shown = rows, shown_rows = sizeof rows / sizeof rows[0])

enum { BEHIND = 256 };

/* The answer buffer of a page, and bytes behind what is lent of it, so that one written there is seen. */
static uint8_t sheet[KNITPASTURE_PAGE_ROOM(KNITPASTURE_MAX_COUNT) + BEHIND];

/* Asks with the given rights for the page of a prefix that follows another, which stands in the answer buffer until now. */
static uint64_t ask(struct bucket *bucket, const char *rights, const char *prefix, const struct page *before, size_t count,
                    size_t length) {
    char line[KNITPASTURE_MAX_LINE];
    snprintf(line, sizeof line, "2024-07-04T00:00:00Z|%s|LIST|%s|%.*s|%zu", rights, prefix, before->place_length,
             before->place, count);
    memset(sheet, JUNK, length + BEHIND);
    return serve(bucket, line, sheet, length);
}

/* The first row from one on whose key begins with the prefix. */
static size_t next_match(const char *prefix, size_t row) {
    while (row < shown_rows && strncmp(shown[row], prefix, strlen(prefix)) != 0) {
        row++;
    }
    return row;
}

/* Checks that a line of a page is the text, and returns what stands behind it. */
static const char *pass(const char *said, const char *text) {
    while (*text != '\0' && *said == (*text == '|' ? '\t' : *text)) {
        said++;
        text++;
    }
    check(*text == '\0' && *said == '\n', "a line of a page is as written here");
    return said + 1;
}

/* Compares a page with the matching rows from one on, and returns the row behind those that it shows. */
static size_t pass_page(const struct page *page, const char *prefix, size_t row) {
    char first[32];
    snprintf(first, sizeof first, "ok|%zu", page->rows);
    const char *said = pass((const char *)sheet, first);
    for (size_t i = 0; i < page->rows; i++) {
        row = next_match(prefix, row);
        check(row < shown_rows, "a page shows no other rows");
        said = pass(said, shown[row++]);
    }
    check(said == (const char *)sheet + page->length, "a page ends with its last line");
    return row;
}

static void only_time_set(const struct bucket *before, const struct bucket *bucket) {
    check(memcmp(before->settings + 8, bucket->settings + 8, sizeof before->settings - 8) == 0, "only the time is set");
    check(memcmp(before->rows, bucket->rows, sizeof before->rows) == 0, "no row is changed");
    check(memcmp(before->keys, bucket->keys, sizeof before->keys) == 0, "nor a key");
}

/* Pages of one prefix, followed to their end by what their bytes say, show every matching row once. */
static void follow(struct bucket *bucket, const char *prefix, size_t count) {
    struct bucket before = *bucket;
    size_t length = KNITPASTURE_PAGE_ROOM(count), row = 0;
    struct page page = START;
    do {
        check(ask(bucket, "r", prefix, &page, count, length) == 0, "a page with just its room is accepted");
        page = page_in((const char *)sheet);
        check(page.rows <= count, "a page has at most as many rows as were asked for");
        check(untouched(sheet, page.length, length + BEHIND), "bytes after a page are untouched");
        row = pass_page(&page, prefix, row);
    } while (page.rows == count);
    check(next_match(prefix, row) == shown_rows, "the pages show every row");
    only_time_set(&before, bucket);
}

/* The room for a page is enough; with a byte less it is 13, unless the right is missing. */
static void page_room(struct bucket *bucket, size_t count) {
    struct bucket before = *bucket;
    size_t length = KNITPASTURE_PAGE_ROOM(count);
    check(ask(bucket, "-", "", &START, count, length - 1) == KNITPASTURE_NO_RIGHT, "5 comes before 13");
    check(ask(bucket, "r", "", &START, count, length - 1) == KNITPASTURE_SHORT_PAGE, "a byte less meets 13");
    check(untouched(sheet, 0, length - 1 + BEHIND), "13 writes no answer");
    check(memcmp(&before, bucket, sizeof before) == 0, "neither changes a byte of the bucket");
    check(ask(bucket, "r", "", &START, count, length) == 0, "the room of a page is enough");
}

/* Follows the pages of some prefixes, of one row to more than there are. */
static void follow_all(struct bucket *bucket, const char *const *prefixes, size_t length) {
    for (size_t i = 0; i < length; i++) {
        for (size_t count = 1; count <= shown_rows + 1; count++) {
            follow(bucket, prefixes[i], count);
        }
    }
}

#define FOLLOW(bucket, prefixes) follow_all(bucket, prefixes, sizeof prefixes / sizeof prefixes[0])

static void pages(struct bucket *bucket) {
    static const char *const prefixes[] = {"", "gauge-7", "gauge-7/", "gauge-7/level", "k", "level"};
    make_fresh(bucket);
    TAKE(bucket, filled);
    SHOW(filled_rows);
    FOLLOW(bucket, prefixes);
    page_room(bucket, 1);
    page_room(bucket, shown_rows);
    page_room(bucket, KNITPASTURE_MAX_COUNT);
    take(bucket, &(struct step){"2024-07-05T00:00:00Z|r|LIST|level||0|1", "no|13"});
    take(bucket, &(struct step){"2024-07-05T00:00:00Z|r|LIST|level||0|1001", "no|3"});
}

/* The numbers of a REPORT. */
struct totals {
    unsigned long long data, markers, length, locked;
};

/* Counts a row as LIST prints it, at an instant that is written as LIST writes dates: so they are ordered as texts. */
static void count_row(struct totals *totals, const char *row, const char *now) {
    char kind[8], length[16], date[32], hold[4];
    check(sscanf(row, "%*[^|]|%*[^|]|%7[^|]|%*[^|]|%*[^|]|%15[^|]|%*[^|]|%31[^|]|%3s", kind, length, date, hold) == 4,
          "a row has nine fields");
    if (strcmp(kind, "marker") == 0) {
        totals->markers++;
        return;
    }
    totals->data++;
    totals->length += strtoull(length, NULL, 10);
    totals->locked += strcmp(hold, "ON") == 0 || strcmp(date, now) > 0;
}

/* The totals of a prefix, in the least answer buffer, are those of the rows that its pages show. */
static void report(struct bucket *bucket, const char *now, const char *prefix) {
    struct bucket before = *bucket;
    struct totals said, counted = {0, 0, 0, 0};
    char line[KNITPASTURE_MAX_LINE], answer[KNITPASTURE_MIN_ANSWER + 1] = "";
    int end = 0;
    snprintf(line, sizeof line, "%s|r|REPORT|%s", now, prefix);
    memset(answer, JUNK, KNITPASTURE_MIN_ANSWER);
    check(serve(bucket, line, (uint8_t *)answer, KNITPASTURE_MIN_ANSWER) == 0, "a report is accepted");
    check(sscanf(answer, "ok\t%llu\t%llu\t%llu\t%llu%n", &said.data, &said.markers, &said.length, &said.locked, &end) == 4,
          "a report has four numbers");
    check(answer[end] == '\n' && untouched((uint8_t *)answer, (size_t)end + 1, KNITPASTURE_MIN_ANSWER),
          "bytes after a report are untouched");
    for (size_t row = next_match(prefix, 0); row < shown_rows; row = next_match(prefix, row + 1)) {
        count_row(&counted, shown[row], now);
    }
    check(memcmp(&said, &counted, sizeof said) == 0, "its numbers are those of the rows");
    only_time_set(&before, bucket);
}

static void reports(struct bucket *bucket) {
    static const char *const prefixes[] = {"", "gauge-7", "gauge-7/", "gauge-7/flow", "gauge-7/level", "k", "level"};
    static const char *const clocks[] = {"2024-07-04T00:00:00.000Z", "2033-01-04T23:59:59.999Z",
                                         "2033-01-05T00:00:00.000Z", "9999-12-31T23:59:59.999Z"};
    static const struct step steps[] = {
        {"2024-07-03T00:00:00Z|r|REPORT|", "ok|7|1|5497558140230|3"},
        {"2024-07-03T00:00:00Z|r|REPORT|gauge-7/", "ok|4|1|1050|2"},
        {"2024-07-03T00:00:00Z|r|REPORT|level", "ok|0|0|0|0"},
        {"2024-07-03T00:00:00Z|wdthbc|REPORT|", "no|5"},
        {"2024-07-03T00:00:00Z|r|REPORT", "no|3"},
    };
    make_fresh(bucket);
    TAKE(bucket, filled);
    SHOW(filled_rows);
    TAKE(bucket, steps);
    for (size_t i = 0; i < sizeof clocks / sizeof clocks[0]; i++) {
        for (size_t j = 0; j < sizeof prefixes / sizeof prefixes[0]; j++) {
            report(bucket, clocks[i], prefixes[j]);
        }
    }
    take(bucket, &(struct step){"2024-07-04T00:00:00Z|r|REPORT|gauge-7/", "ok|4|1|1050|1"});
}

/* What release 1.6.0 showed of the bucket that it saved: its next number is 4294967296, so that it added no row more. */
static const char *const carried_rows[] = {
    "gauge-7/copy|4294967294|data|2024-06-30T12:00:06.000Z|41|300|-|-|OFF",
    "gauge-7/flow|4294967289|data|2024-06-30T12:00:01.000Z|42|301|GOVERNANCE|2030-01-01T00:00:00.000Z|OFF",
    "gauge-7/level|4294967293|data|2024-06-30T12:00:05.000Z|45|304|-|-|ON",
    "gauge-7/level|4294967288|data|2024-06-30T12:00:00.000Z|41|300|COMPLIANCE|2033-01-05T00:00:00.000Z|OFF",
    "gauge-7/sluice|4294967290|data|2024-06-30T12:00:02.000Z|43|302|COMPLIANCE|2024-08-01T00:00:00.000Z|ON",
    "logger/a|4294967292|marker|2024-06-30T12:00:04.000Z|-|-|-|-|OFF",
    "logger/a|4294967291|data|2024-06-30T12:00:03.000Z|44|303|-|-|OFF",
    "logger/b|4294967295|data|2024-06-30T12:00:07.000Z|46|305|-|-|OFF",
};

/* It is loaded and goes on: rows are added, the default and the rule are those that were set, and what was locked is held
 * until its date, a bypass or the end of its hold. */
static void carried_over(struct bucket *bucket, const char *folder) {
    static const char *const prefixes[] = {"", "gauge-7/", "gauge-7/level", "logger/", "none"};
    static const struct step steps[] = {
        {"2024-07-04T00:00:00Z|r|REPORT|", "ok|7|1|2115|4"},
        {"2024-07-04T00:00:00Z|w|PUT|logger/c|47|306|-|-|-", "ok|4294967296"},
        {"2024-07-04T00:00:00Z|w|PUT|logger/c|47|306|-|-|-", "ok|4294967296"},
        {"2024-07-04T00:00:00Z|r|GET|logger/c|-", "ok|4294967296|47|306|GOVERNANCE|2025-07-04T00:00:00.000Z|OFF"},
        {"2024-07-04T00:00:00Z|rwt|COPY|gauge-7/level|4294967288|gauge-7/copy|GOVERNANCE|2024-07-05T00:00:00Z|-",
         "ok|4294967297"},
        {"2024-07-04T00:00:00Z|r|GET|gauge-7/copy|-", "ok|4294967297|41|300|GOVERNANCE|2024-07-05T00:00:00.000Z|OFF"},
        {"2024-07-04T00:00:00Z|r|GET|gauge-7/copy|4294967294", "ok|4294967294|41|300|-|-|OFF"},
        {"2024-07-04T00:00:00Z|rwdthbc|DELETE|gauge-7/level|4294967288|yes", "no|9"},
        {"2024-07-04T00:00:00Z|tb|RETAIN|gauge-7/level|4294967288|-|-|yes", "no|9"},
        {"2024-07-04T00:00:00Z|tb|RETAIN|gauge-7/level|4294967288|COMPLIANCE|2033-01-04T23:59:59.999Z|yes", "no|9"},
        {"2024-07-04T00:00:00Z|tb|RETAIN|gauge-7/level|4294967288|GOVERNANCE|2033-01-05T00:00:00Z|yes", "no|9"},
        {"2024-07-04T00:00:00Z|d|DELETE|gauge-7/flow|4294967289|no", "no|9"},
        {"2024-07-04T00:00:00Z|db|DELETE|gauge-7/flow|4294967289|yes", "ok|4294967289|removed"},
        {"2024-07-31T23:59:59.999Z|rwdthbc|DELETE|gauge-7/sluice|4294967290|yes", "no|9"},
        {"2024-08-01T00:00:00Z|rwdthbc|DELETE|gauge-7/sluice|4294967290|yes", "no|9"},
        {"2024-08-01T00:00:00Z|h|HOLD|gauge-7/sluice|4294967290|OFF", "ok"},
        {"2024-08-01T00:00:00Z|d|DELETE|gauge-7/sluice|4294967290|no", "ok|4294967290|removed"},
        {"2024-08-01T00:00:00Z|c|SWEEP", "ok|1|1"},
        {"2024-08-01T00:00:00Z|r|GET|logger/a|4294967291", "no|7"},
        {"2024-08-01T00:00:00Z|d|DELETE|logger/a|4294967292|no", "ok|4294967292|removed-marker"},
        {"2024-08-01T00:00:00Z|d|DELETE|logger/b|4294967298|no", "ok|4294967298|removed-marker"},
        {"2024-08-01T00:00:00Z|d|DELETE|logger/b|4294967295|no", "ok|4294967295|removed"},
        {"2033-01-04T23:59:59.999Z|rwdthbc|DELETE|gauge-7/level|4294967288|yes", "no|9"},
        {"2033-01-05T00:00:00Z|d|DELETE|gauge-7/level|4294967288|no", "ok|4294967288|removed"},
        {"9999-12-31T23:59:59.999Z|rwdthbc|DELETE|gauge-7/level|4294967293|yes", "no|9"},
        {"9999-12-31T23:59:59.999Z|r|GET|gauge-7/level|-", "ok|4294967293|45|304|-|-|ON"},
    };
    check(load(bucket, folder, "saved-by-1.6.0") == 1, "what release 1.6.0 saved is loaded");
    struct bucket before = *bucket;
    SHOW(carried_rows);
    FOLLOW(bucket, prefixes);
    TAKE(bucket, steps);
    check(memcmp(before.settings + DEFAULT_MODE, bucket->settings + DEFAULT_MODE, sizeof before.settings - DEFAULT_MODE) == 0,
          "the default and the rules are as they were set");
}

/* A fresh bucket, of whose version numbers only so many are left. */
static void make_near_end(struct bucket *bucket, uint64_t left) {
    uint64_t next = UINT64_MAX - left;
    make_fresh(bucket);
    for (size_t i = 0; i < 8; i++) {
        bucket->settings[NEXT_NUMBER + i] = (uint8_t)(next >> 8 * i);
    }
}

/* Rows whose numbers have 20 digits, the last one's line of the most bytes. */
static const char *const last_rows[] = {
    "gauge/1|18446744073709551612|data|2024-07-01T00:00:00.000Z|7|70|-|-|OFF",
    "gauge/2|18446744073709551613|data|2024-07-01T00:00:00.000Z|7|70|-|-|OFF",
    LONGEST_KEY "|18446744073709551614|data|2024-07-01T00:00:00.000Z|18446744073709551615|5497558138880|COMPLIANCE|"
                "9999-12-31T23:59:59.999Z|OFF",
};

/* The last version number is given once; then 11 meets whatever adds a row, and whatever adds none is served. */
static void last_numbers(struct bucket *bucket) {
    static const char *const prefixes[] = {"", "gauge/", "gauge/2", "k"};
    static const struct step before[] = {
        {"2024-07-01T00:00:00Z|w|PUT|gauge/1|7|70|-|-|-", "ok|18446744073709551612"},
        {"2024-07-01T00:00:00Z|rw|COPY|gauge/1|-|gauge/2|-|-|-", "ok|18446744073709551613"},
        {"2024-07-01T00:00:00Z|c|RULE|0|gauge/|1|0", "ok"},
        {"2024-07-02T00:00:00Z|c|SWEEP", "no|11"},
        {"2024-07-01T00:00:00Z|wth|PUT|" LONGEST_KEY
         "|18446744073709551615|5497558138880|COMPLIANCE|9999-12-31T23:59:59.999Z|OFF", "ok|18446744073709551614"},
    };
    static const struct step after[] = {
        {"2024-07-04T00:00:00Z|w|PUT|gauge/3|8|80|-|-|-", "no|11"},
        {"2024-07-04T00:00:00Z|rw|COPY|gauge/1|-|gauge/1|-|-|-", "no|11"},
        {"2024-07-04T00:00:00Z|d|DELETE|gauge/1|-|no", "no|11"},
        {"2024-07-04T00:00:00Z|c|SWEEP", "no|11"},
        {"2024-07-04T00:00:00Z|c|RULE|0|gauge/|0|1", "ok"},
        {"2024-07-04T00:00:00Z|c|SWEEP", "ok|0|0"},
        {"2024-07-04T00:00:00Z|w|PUT|gauge/1|7|70|-|-|-", "ok|18446744073709551612"},
        {"2024-07-04T00:00:00Z|r|GET|gauge/2|18446744073709551613", "ok|18446744073709551613|7|70|-|-|OFF"},
        {"2024-07-04T00:00:00Z|r|GET|gauge/2|18446744073709551614", "no|7"},
        {"2024-07-04T00:00:00Z|r|GET|gauge/2|18446744073709551615", "no|3"},
        {"2024-07-04T00:00:00Z|rwdthbc|DELETE|" LONGEST_KEY "|18446744073709551614|yes", "no|9"},
        {"2024-07-04T00:00:00Z|d|DELETE|gauge/2|18446744073709551613|no", "ok|18446744073709551613|removed"},
        {"2024-07-04T00:00:00Z|w|PUT|gauge/2|8|80|-|-|-", "no|11"},
    };
    static const struct step marked[] = {
        {"2024-07-01T00:00:00Z|w|PUT|gauge/1|7|70|-|-|-", "ok|18446744073709551611"},
        {"2024-07-01T00:00:00Z|w|PUT|gauge/2|8|80|-|-|-", "ok|18446744073709551612"},
        {"2024-07-01T00:00:00Z|c|RULE|0|gauge/|1|0", "ok"},
        {"2024-07-02T00:00:00Z|c|SWEEP", "ok|0|2"},
        {"2024-07-02T00:00:00Z|d|DELETE|gauge/2|18446744073709551614|no", "ok|18446744073709551614|removed-marker"},
        {"2024-07-02T00:00:00Z|d|DELETE|gauge/1|18446744073709551613|no", "ok|18446744073709551613|removed-marker"},
        {"2024-07-02T00:00:00Z|c|SWEEP", "no|11"},
    };
    make_near_end(bucket, 3);
    TAKE(bucket, before);
    SHOW(last_rows);
    FOLLOW(bucket, prefixes);
    check(ask(bucket, "r", "k", &START, 1, KNITPASTURE_PAGE_ROOM(1)) == 0, "the longest row fits the room of a page of one");
    check(page_in((const char *)sheet).length == strlen("ok|1\n") + 190, "and its line has 190 bytes");
    TAKE(bucket, after);
    make_near_end(bucket, 4);
    TAKE(bucket, marked);
}

/* Longer buffers whose new rows are zero hold the same bucket. */
static void grown(const struct bucket *bucket) {
    static uint8_t rows[2 * sizeof bucket->rows], keys[2 * sizeof bucket->keys];
    uint8_t settings[KNITPASTURE_SETTINGS_BYTES];
    memcpy(settings, bucket->settings, sizeof settings);
    memcpy(rows, bucket->rows, sizeof bucket->rows);
    memcpy(keys, bucket->keys, sizeof bucket->keys);
    for (size_t i = 0; i < 2 * CAPACITY; i++) {
        char line[KNITPASTURE_MAX_LINE];
        uint8_t answer[KNITPASTURE_MIN_ANSWER];
        int length = snprintf(line, sizeof line, "2024-07-01T00:00:00Z\tw\tPUT\tgauge/%u\t1\t1\t-\t-\t-", (unsigned)i);
        check(knitpasture_serve(settings, sizeof settings, rows, sizeof rows, keys, sizeof keys, (const uint8_t *)line,
                                (size_t)length, answer, sizeof answer) == 0,
              "a bucket that was made larger has room for as many rows");
    }
}

/* A bucket of the most rows. */
static struct {
    uint8_t settings[KNITPASTURE_SETTINGS_BYTES];
    uint8_t rows[KNITPASTURE_MAX_ROWS * KNITPASTURE_ROW_BYTES];
    uint8_t keys[KNITPASTURE_MAX_ROWS * KNITPASTURE_KEY_BYTES];
} large;

static void large_takes(const char *line, uint8_t *answer) {
    check(knitpasture_serve(large.settings, sizeof large.settings, large.rows, sizeof large.rows, large.keys,
                            sizeof large.keys, (const uint8_t *)line, strlen(line), answer, KNITPASTURE_MIN_ANSWER) == 0,
          "a line on the most rows is accepted");
}

/* The largest sum: each of the most rows is of the largest length. */
static void largest_report(void) {
    static const char totals[] = "ok\t1024\t0\t5629499534213120\t1024\n";
    char line[KNITPASTURE_MAX_LINE];
    uint8_t answer[KNITPASTURE_MIN_ANSWER];
    knitpasture_fresh(large.settings, sizeof large.settings, large.rows, sizeof large.rows, large.keys, sizeof large.keys);
    large_takes("2024-07-01T00:00:00Z\tc\tDEFAULT\tGOVERNANCE\t1d", answer);
    for (unsigned i = 0; i < KNITPASTURE_MAX_ROWS; i++) {
        snprintf(line, sizeof line, "2024-07-01T00:00:00Z\tw\tPUT\tgauge/%u\t1\t5497558138880\t-\t-\t-", i);
        large_takes(line, answer);
    }
    large_takes("2024-07-01T00:00:00Z\tr\tREPORT\t", answer);
    check(memcmp(answer, totals, sizeof totals - 1) == 0, "the largest sum");
}

static void texts(void) {
    for (uint64_t number = 0; number <= KNITPASTURE_SHORT_PAGE; number++) {
        check(strcmp(knitpasture_refusal_text(number), "unknown") != 0, "each result has a text");
    }
    check(strcmp(knitpasture_refusal_text(14), "unknown") == 0, "no other number has");
}

int main(int count, char **words) {
    struct bucket *bucket = malloc(sizeof *bucket);
    if (bucket == NULL || count != 2) {
        fprintf(stderr, "usage: client FOLDER\n");
        return 2;
    }
    for (form = AS_BYTES; form < FORMS; form++) {
        pages(bucket);
        reports(bucket);
        whole_run(bucket);
        sent_again(bucket);
        sent_again_full(bucket);
        years_from_before(bucket);
        carried_over(bucket, words[1]);
        last_numbers(bucket);
        kept_through_reload(bucket, words[1]);
        wrong_lengths(bucket);
    }
    grown(bucket);
    largest_report();
    sweeps_count(bucket);
    texts();
    free(bucket);
    printf("client: %u checks passed\n", checks);
    return 0;
}
