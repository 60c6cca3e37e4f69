/* A bucket kept in a file, so that a power cut at any moment leaves the bucket before a line or after it. */
#include "knitpasture.h"

#include <errno.h>
#include <fcntl.h>
#include <stdio.h>
#include <unistd.h>

enum { CAPACITY = 16 };

struct bucket {
    uint8_t settings[KNITPASTURE_SETTINGS_BYTES];
    uint8_t rows[CAPACITY * KNITPASTURE_ROW_BYTES];
    uint8_t keys[CAPACITY * KNITPASTURE_KEY_BYTES];
};

/* Closes a file, and says whether all went well with it. */
static int closed(int file, int well) {
    return close(file) == 0 && well;
}

/* Has the names in a folder reach the disk. */
static int synced(const char *folder) {
    int file = open(folder, O_RDONLY);
    return file >= 0 && closed(file, fsync(file) == 0);
}

/* Writes the bucket beside the file, and only when that has reached the disk puts it in the file's place. */
static int save(const struct bucket *bucket, const char *folder, const char *name) {
    char place[4096], beside[4096];
    snprintf(place, sizeof place, "%s/%s", folder, name);
    snprintf(beside, sizeof beside, "%s/%s.new", folder, name);
    int file = open(beside, O_WRONLY | O_CREAT | O_TRUNC, 0600);
    if (file < 0) {
        return 0;
    }
    int written = write(file, bucket, sizeof *bucket) == (ssize_t)sizeof *bucket && fsync(file) == 0;
    return closed(file, written) && rename(beside, place) == 0 && synced(folder);
}

/* Loads the bucket: 1 if it is there, 0 if there is none yet, -1 if it can't be read. */
static int load(struct bucket *bucket, const char *folder, const char *name) {
    char place[4096];
    snprintf(place, sizeof place, "%s/%s", folder, name);
    int file = open(place, O_RDONLY);
    if (file < 0) {
        return errno == ENOENT ? 0 : -1;
    }
    return closed(file, read(file, bucket, sizeof *bucket) == (ssize_t)sizeof *bucket) ? 1 : -1;
}
