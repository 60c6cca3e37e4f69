/* Ends a hub at each system call of a save in turn, and loads what is left: the bucket before the line or after it. */
#define _GNU_SOURCE
#include "../../samples/save.h"

#include <signal.h>
#include <stddef.h>
#include <stdlib.h>
#include <string.h>
#include <sys/ptrace.h>
#include <sys/syscall.h>
#include <sys/user.h>
#include <sys/wait.h>

/* What the child last did: w for each write, s for each fsync, r for each rename. */
static char order[64];

static void check(int holds, const char *what) {
    if (!holds) {
        fprintf(stderr, "powercut: not so: %s\n", what);
        exit(1);
    }
}

static void serve(struct bucket *bucket, const char *line) {
    uint8_t answer[KNITPASTURE_MIN_ANSWER];
    check(knitpasture_serve(bucket->settings, sizeof bucket->settings, bucket->rows, sizeof bucket->rows, bucket->keys,
                            sizeof bucket->keys, (const uint8_t *)line, strlen(line), answer, sizeof answer) == 0,
          "the line is accepted");
}

static char letter(long call) {
    switch (call) {
    case SYS_write: return 'w';
    case SYS_fsync: return 's';
    case SYS_rename:
    case SYS_renameat:
    case SYS_renameat2: return 'r';
    default: return '\0';
    }
}

static void note(pid_t child) {
    size_t length = strlen(order);
    if (length + 1 < sizeof order) {
        order[length] = letter(ptrace(PTRACE_PEEKUSER, child, offsetof(struct user, regs.orig_rax), NULL));
        order[length + 1] = '\0';
    }
}

/* Saves in a child that stops where a system call begins and where it ends, and ends the child at a stop.
 * Returns whether the child had saved by then. */
static int cut(const struct bucket *bucket, const char *folder, unsigned last) {
    int status;
    pid_t child = fork();
    check(child >= 0, "a child starts");
    if (child == 0) {
        ptrace(PTRACE_TRACEME, 0, NULL, NULL);
        raise(SIGSTOP);
        _exit(!save(bucket, folder, "bucket"));
    }
    order[0] = '\0';
    check(waitpid(child, &status, 0) == child && WIFSTOPPED(status), "the child stops");
    for (unsigned stop = 0; stop < last; stop++) {
        check(ptrace(PTRACE_SYSCALL, child, NULL, NULL) == 0, "the child may be traced");
        check(waitpid(child, &status, 0) == child, "the child goes on");
        if (WIFEXITED(status)) {
            check(WEXITSTATUS(status) == 0, "the child saves");
            return 1;
        }
        /* the first stop is where raise ends; then beginnings and ends take turns */
        if (stop % 2 == 1) {
            note(child);
        }
    }
    kill(child, SIGKILL);
    check(waitpid(child, &status, 0) == child, "the child ends");
    return 0;
}

int main(int count, char **words) {
    static struct bucket before, after, left;
    unsigned stops = 0, olds = 0, news = 0;
    int saved;
    if (count != 2) {
        fprintf(stderr, "usage: powercut FOLDER\n");
        return 2;
    }
    check(knitpasture_fresh(before.settings, sizeof before.settings, before.rows, sizeof before.rows, before.keys,
                            sizeof before.keys) == 0,
          "a fresh bucket is made");
    serve(&before, "2024-03-01T00:00:00Z\twt\tPUT\tq/7\t41\t300\tCOMPLIANCE\t2033-01-05T00:00:00Z\t-");
    after = before;
    serve(&after, "2024-03-02T00:00:00Z\tw\tPUT\tq/8\t42\t301\t-\t-\t-");
    do {
        check(save(&before, words[1], "bucket"), "the bucket before the line is saved");
        saved = cut(&after, words[1], stops++);
        check(load(&left, words[1], "bucket") == 1, "a bucket is left");
        int is_old = memcmp(&left, &before, sizeof left) == 0, is_new = memcmp(&left, &after, sizeof left) == 0;
        check(is_old || is_new, "what is left is the bucket before the line or after it");
        check(is_new || !saved, "what is saved stays");
        olds += is_old;
        news += is_new;
    } while (!saved);
    check(olds > 0 && news > 1, "the cuts come before the bucket is replaced and after");
    check(strcmp(order, "wsrs") == 0, "a file is on the disk before it is renamed, and its name before the answer");
    printf("powercut: of %u cuts %u left the bucket before the line, %u the one after it\n", stops - 1, olds, news - 1);
    return 0;
}
