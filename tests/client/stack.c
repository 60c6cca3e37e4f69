/* The stack that each entry takes: a call runs on a stack of its own that was painted, and what it wrote over is counted.
 * The header's figures must hold, and be at most SLACK bytes too high. */
#define _GNU_SOURCE
#include "knitpasture.h"

#include <stdint.h>
#include <stdio.h>
#include <string.h>
#include <ucontext.h>

enum { ROOM = 262144, PAINT = 0x5C, SLACK = 8192 };

static uint8_t room[ROOM];
static ucontext_t caller, callee;

/* The bucket, and the line of the call under way. */
static uint8_t settings[KNITPASTURE_SETTINGS_BYTES];
static uint64_t rows[KNITPASTURE_MAX_ROWS * KNITPASTURE_ROW_WORDS];
static uint8_t keys[KNITPASTURE_MAX_ROWS * KNITPASTURE_KEY_BYTES];
static uint8_t answer[KNITPASTURE_PAGE_ROOM(8)];
static uint64_t comparisons;
static size_t capacity;
static const char *line;

#define SETTINGS settings, sizeof settings
#define ROW_BYTES (uint8_t *)rows, capacity * KNITPASTURE_ROW_BYTES
#define ROW_WORDS rows, capacity * KNITPASTURE_ROW_WORDS
#define KEYS keys, capacity * KNITPASTURE_KEY_BYTES
#define LINE (const uint8_t *)line, strlen(line), answer, sizeof answer

static void nothing(void) {}
static void serve(void) { knitpasture_serve(SETTINGS, ROW_BYTES, KEYS, LINE); }
static void serve_counted(void) { knitpasture_serve_counted(SETTINGS, ROW_BYTES, KEYS, LINE, &comparisons); }
static void serve_words(void) { knitpasture_serve_words(SETTINGS, ROW_WORDS, KEYS, LINE); }
static void serve_lent(void) { knitpasture_serve_lent((struct knitpasture_settings *)settings, ROW_WORDS, KEYS, LINE); }
static void key(void) { knitpasture_key(SETTINGS, ROW_BYTES, KEYS, 0); }
static void fresh(void) { knitpasture_fresh(SETTINGS, ROW_BYTES, KEYS); }
static void fresh_words(void) { knitpasture_fresh_words(SETTINGS, ROW_WORDS, KEYS); }

static const struct entry {
    const char *name;
    void (*call)(void);
    size_t stated;
} entries[] = {
    {"knitpasture_serve", serve, KNITPASTURE_STACK_SERVE},
    {"knitpasture_serve_counted", serve_counted, KNITPASTURE_STACK_SERVE},
    {"knitpasture_serve_words", serve_words, KNITPASTURE_STACK_SERVE_WORDS},
    {"knitpasture_serve_lent", serve_lent, KNITPASTURE_STACK_SERVE_LENT},
    {"knitpasture_key", key, KNITPASTURE_STACK_KEY},
    {"knitpasture_fresh", fresh, KNITPASTURE_STACK_FRESH},
    {"knitpasture_fresh_words", fresh_words, KNITPASTURE_STACK_FRESH},
};

static const char *const lines[] = {
    "2024-01-01T00:00:00Z\tw\tPUT\ta/1\t41\t300\t-\t-\t-",
    "2024-01-01T00:00:00Z\twth\tPUT\ta/2\t42\t300\tCOMPLIANCE\t2030-01-01T00:00:00Z\tON",
    "2024-01-01T00:00:00Z\twth\tPUT\ta/2\t42\t300\tCOMPLIANCE\t2030-01-01T00:00:00Z\tON",
    "2024-01-02T00:00:00Z\twr\tCOPY\ta/1\t-\ta/3\t-\t-\t-",
    "2024-01-02T00:00:00Z\tt\tRETAIN\ta/1\t-\tGOVERNANCE\t2025-01-01T00:00:00Z\tno",
    "2024-01-02T00:00:00Z\th\tHOLD\ta/1\t-\tON",
    "2024-01-02T00:00:00Z\tr\tGET\ta/2\t-",
    "2024-01-02T00:00:00Z\tr\tLIST\ta/\t\t0\t8",
    "2024-01-02T00:00:00Z\tr\tLIST\ta/\ta/1\t1\t8",
    "2024-01-02T00:00:00Z\tr\tREPORT\ta/",
    "2024-01-03T00:00:00Z\td\tDELETE\ta/3\t-\tno",
    "2024-01-03T00:00:00Z\td\tDELETE\ta/3\t3\tno",
    "2024-01-03T00:00:00Z\tc\tDEFAULT\tGOVERNANCE\t1y",
    "2024-01-03T00:00:00Z\tc\tRULE\t0\ta/\t1\t1",
    "2024-02-03T00:00:00Z\tc\tSWEEP",
    "2024-02-03T00:00:00Z\tr\tFETCH",
};

/* The bytes of stack that a call wrote over. */
static size_t depth(void (*call)(void)) {
    size_t clean = 0;
    memset(room, PAINT, sizeof room);
    getcontext(&callee);
    callee.uc_stack.ss_sp = room;
    callee.uc_stack.ss_size = sizeof room;
    callee.uc_link = &caller;
    makecontext(&callee, call, 0);
    swapcontext(&caller, &callee);
    while (clean < sizeof room && room[clean] == PAINT) {
        clean++;
    }
    return sizeof room - clean;
}

/* The most stack that an entry takes over all lines, from a fresh bucket on. */
static size_t most(const struct entry *entry, size_t rows_count) {
    size_t deepest = 0;
    capacity = rows_count;
    fresh_words();
    for (size_t i = 0; i < sizeof lines / sizeof lines[0]; i++) {
        line = lines[i];
        size_t taken = depth(entry->call) - depth(nothing);
        deepest = taken > deepest ? taken : deepest;
    }
    return deepest;
}

int main(void) {
    int wrong = 0;
    for (size_t i = 0; i < sizeof entries / sizeof entries[0]; i++) {
        size_t small = most(&entries[i], 16), large = most(&entries[i], KNITPASTURE_MAX_ROWS);
        size_t deepest = small > large ? small : large;
        printf("stack: %s takes %zu bytes for 16 rows, %zu for 1024; the header says %zu\n", entries[i].name, small, large,
               entries[i].stated);
        wrong |= deepest > entries[i].stated || entries[i].stated > deepest + SLACK;
    }
    return wrong;
}
