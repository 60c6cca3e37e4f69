/* Sends the table of a saved bucket, page by page, to its end. Nothing is allocated: a page stands in one fixed buffer. */
#include "page.h"
#include "save.h"

enum { COUNT = 2 };

static struct bucket bucket;
static char answer[KNITPASTURE_PAGE_ROOM(COUNT)];

/* Asks for the page of a prefix that follows another. */
static uint64_t ask(const char *prefix, const struct page *before) {
    char line[KNITPASTURE_MAX_LINE];
    int length = snprintf(line, sizeof line, "2024-03-03T00:00:00Z\tr\tLIST\t%s\t%.*s\t%d", prefix, before->place_length,
                          before->place, COUNT);
    return knitpasture_serve(bucket.settings, sizeof bucket.settings, bucket.rows, sizeof bucket.rows, bucket.keys,
                             sizeof bucket.keys, (const uint8_t *)line, (size_t)length, (uint8_t *)answer, sizeof answer);
}

/* Sends the pages of a prefix. The last one has fewer rows than were asked for. */
static int send_pages(const char *folder, const char *prefix) {
    struct page page = START;
    do {
        uint64_t number = ask(prefix, &page);
        if (number != KNITPASTURE_ACCEPTED) {
            fprintf(stderr, "refused with %d: %s\n", (int)number, knitpasture_refusal_text(number));
            return 0;
        }
        page = page_in(answer);
        if (!save(&bucket, folder, "bucket") || fwrite(answer, 1, page.length, stdout) != page.length) {
            perror("the page was not sent");
            return 0;
        }
    } while (page.rows == COUNT);
    return 1;
}

int main(int count, char **words) {
    if (count != 2 || load(&bucket, words[1], "bucket") != 1) {
        fprintf(stderr, "usage: pages FOLDER, where a hub has saved its bucket\n");
        return 2;
    }
    return !send_pages(words[1], "");
}
