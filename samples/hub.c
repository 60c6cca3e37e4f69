/* A hub that serves three lines on a bucket which it keeps in a file: an answer is given once its line is saved. */
#include "save.h"

#include <string.h>

static int serve(struct bucket *bucket, const char *folder, const char *line) {
    uint8_t answer[KNITPASTURE_MIN_ANSWER];
    uint64_t number = knitpasture_serve(bucket->settings, sizeof bucket->settings, bucket->rows, sizeof bucket->rows,
                                        bucket->keys, sizeof bucket->keys, (const uint8_t *)line, strlen(line),
                                        answer, sizeof answer);
    if (number != KNITPASTURE_ACCEPTED) {
        printf("refused with %d: %s\n", (int)number, knitpasture_refusal_text(number));
        return 1;
    }
    if (!save(bucket, folder, "bucket")) {
        perror("the bucket was not saved");
        return 0;
    }
    size_t length = 1 + strcspn((const char *)answer, "\n");
    return fwrite(answer, 1, length, stdout) == length;
}

static int ready(struct bucket *bucket, const char *folder) {
    int loaded = load(bucket, folder, "bucket");
    if (loaded != 0) {
        return loaded > 0;
    }
    return knitpasture_fresh(bucket->settings, sizeof bucket->settings, bucket->rows, sizeof bucket->rows,
                             bucket->keys, sizeof bucket->keys) == 0;
}

int main(int count, char **words) {
    static struct bucket bucket;
    if (count != 2 || !ready(&bucket, words[1])) {
        fprintf(stderr, "usage: hub FOLDER\n");
        return 2;
    }
    int served = serve(&bucket, words[1], "2024-03-01T00:00:00Z\twt\tPUT\tq/7\t41\t300\tCOMPLIANCE\t2033-01-05T00:00:00Z\t-")
        && serve(&bucket, words[1], "2024-03-01T12:00:00Z\tdb\tDELETE\tq/7\t1\tyes")
        && serve(&bucket, words[1], "2024-03-02T00:00:00Z\tr\tGET\tq/7\t1");
    return !served;
}
