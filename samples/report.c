/* Prints the totals of prefixes at an instant, from a bucket that a hub has saved: a quarter's report. */
#include "save.h"

#include <inttypes.h>

static struct bucket bucket;

struct totals {
    uint64_t versions;
    uint64_t markers;
    uint64_t bytes;
    uint64_t locked;
};

/* Asks for the totals of a prefix. The answer has room for a zero behind it, where the reading of it ends. */
static uint64_t report(const char *clock, const char *prefix, struct totals *totals) {
    char line[KNITPASTURE_MAX_LINE];
    char answer[KNITPASTURE_MIN_ANSWER + 1] = {0};
    size_t length = (size_t)snprintf(line, sizeof line, "%s\tr\tREPORT\t%s", clock, prefix);
    if (length >= sizeof line) {
        return KNITPASTURE_UNREADABLE;
    }
    uint64_t number = knitpasture_serve(bucket.settings, sizeof bucket.settings, bucket.rows, sizeof bucket.rows, bucket.keys,
                                        sizeof bucket.keys, (const uint8_t *)line, length, (uint8_t *)answer,
                                        KNITPASTURE_MIN_ANSWER);
    if (number == KNITPASTURE_ACCEPTED) {
        sscanf(answer, "ok\t%" SCNu64 "\t%" SCNu64 "\t%" SCNu64 "\t%" SCNu64, &totals->versions, &totals->markers,
               &totals->bytes, &totals->locked);
    }
    return number;
}

/* An accepted REPORT moves the bucket's time, so that it is saved like every accepted line. */
static int print_report(const char *folder, const char *clock, const char *prefix) {
    struct totals totals;
    uint64_t number = report(clock, prefix, &totals);
    if (number != KNITPASTURE_ACCEPTED) {
        fprintf(stderr, "refused with %d: %s\n", (int)number, knitpasture_refusal_text(number));
        return 0;
    }
    if (!save(&bucket, folder, "bucket")) {
        perror("the bucket was not saved");
        return 0;
    }
    return printf("\"%s\": %" PRIu64 " data, %" PRIu64 " markers, %" PRIu64 " bytes, %" PRIu64 " locked\n", prefix,
                  totals.versions, totals.markers, totals.bytes, totals.locked) > 0;
}

int main(int count, char **words) {
    if (count < 4 || load(&bucket, words[1], "bucket") != 1) {
        fprintf(stderr, "usage: report FOLDER CLOCK PREFIX.., where a hub has saved its bucket\n");
        return 2;
    }
    for (int word = 3; word < count; word++) {
        if (!print_report(words[1], words[2], words[word])) {
            return 1;
        }
    }
    return 0;
}
