/* Sends a PUT up to five times, until its reply comes, over a modem that loses the first two replies: the hub gains one
 * version, and a GET shows the lock that it has. */
#include "save.h"

#include <string.h>

enum { TRIES = 5, LOST = 2 };

static struct bucket bucket;
static char answer[KNITPASTURE_MIN_ANSWER];

/* The hub, behind the modem: it replies once the bucket that the line leaves is saved. */
static int hub_replies(const char *folder, const char *line, uint64_t *number) {
    if (load(&bucket, folder, "bucket") != 1) {
        return 0;
    }
    *number = knitpasture_serve(bucket.settings, sizeof bucket.settings, bucket.rows, sizeof bucket.rows, bucket.keys,
                                sizeof bucket.keys, (const uint8_t *)line, strlen(line), (uint8_t *)answer, sizeof answer);
    return *number != KNITPASTURE_ACCEPTED || save(&bucket, folder, "bucket");
}

/* The modem: every line reaches the hub, the first replies don't come back. */
static int reply_comes(const char *folder, const char *line, uint64_t *number) {
    static int replies;
    return hub_replies(folder, line, number) && replies++ >= LOST;
}

static int show(uint64_t number) {
    if (number != KNITPASTURE_ACCEPTED) {
        printf("refused with %d: %s\n", (int)number, knitpasture_refusal_text(number));
        return 0;
    }
    size_t length = 1 + strcspn(answer, "\n");
    return fwrite(answer, 1, length, stdout) == length;
}

/* Sends a line, the same bytes each time, until a reply comes; a refusal is a reply too. */
static int sent(const char *folder, const char *line) {
    uint64_t number;
    for (int tries = 0; tries < TRIES; tries++) {
        if (reply_comes(folder, line, &number)) {
            return show(number);
        }
        puts("no reply");
    }
    return 0;
}

int main(int count, char **words) {
    if (count != 2 || load(&bucket, words[1], "bucket") != 1) {
        fprintf(stderr, "usage: resend FOLDER, where a hub has saved its bucket\n");
        return 2;
    }
    int both = sent(words[1], "2024-03-02T00:00:00Z\twt\tPUT\tq/8\t42\t120\tCOMPLIANCE\t2033-01-05T00:00:00Z\t-")
        && sent(words[1], "2024-03-02T00:00:00Z\tr\tGET\tq/8\t-");
    return !both;
}
