/* A page of versions, read where it stands: in the answer buffer of an accepted LIST. */
#include "knitpasture.h"

struct page {
    size_t rows;
    size_t length;     /* of the whole answer */
    const char *place; /* key and version of its last row, with the tab between them: the next page goes on there */
    int place_length;
};

/* Where the first page starts: the empty key and version 0. */
static const struct page START = {0, 0, "\t0", 2};

/* What stands behind the next such byte. */
static const char *behind(const char *text, char byte) {
    while (*text != byte) {
        text++;
    }
    return text + 1;
}

/* The first line is `ok`, a tab and the number of rows; then comes a line for each row, its key and its version first. */
static struct page page_in(const char *answer) {
    struct page page = START;
    const char *text = behind(answer, '\t');
    while (*text != '\n') {
        page.rows = 10 * page.rows + (size_t)(*text++ - '0');
    }
    text++;
    for (size_t row = 0; row < page.rows; row++) {
        page.place = text;
        text = behind(text, '\n');
    }
    page.length = (size_t)(text - answer);
    if (page.rows > 0) {
        page.place_length = (int)(behind(behind(page.place, '\t'), '\t') - 1 - page.place);
    }
    return page;
}
