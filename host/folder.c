/* What a host reads of a folder: its secret, and the number in the head of its journal.

   The secret has 32 bytes, which are drawn once. In memory it lasts as long as the process. A
   folder has it in a file `secret`, which its owner alone may read. */
#define _GNU_SOURCE
#include <errno.h>
#include <fcntl.h>
#include <stdbool.h>
#include <stdio.h>
#include <stdlib.h>
#include <string.h>
#include <sys/random.h>
#include <sys/stat.h>
#include <unistd.h>
#include "parts.h"
#include "start.h"

/* The path of a file of a folder. */
static char *path_of(const char *folder, const char *name) {
    char *path;
    if (asprintf(&path, "%s/%s", folder, name) < 0) stop(1, "out of memory");
    return path;
}

int servers_of(const char *folder) {
    uint8_t head[21] = {0};
    struct part it = part_opened(folder, 0);
    for (uint64_t before; (before = part_before(it)); it = part_opened(folder, before)) {
        close(it.file);
    }
    bool is_whole = it.file >= 0 && pread(it.file, head, sizeof head, 0) == sizeof head;
    if (it.file >= 0) close(it.file);
    return is_whole && 1 <= head[20] && head[20] <= 16 ? head[20] : 1;
}

/* Reads the secret from a file. Returns whether there is a file. */
static bool is_read(const char *path, uint8_t secret[SECRET]) {
    uint8_t bytes[SECRET + 1];
    size_t count = 0;
    ssize_t more = 1;
    int file = open(path, O_RDONLY | O_CLOEXEC);
    if (file < 0 && errno == ENOENT) return false;
    if (file < 0 && errno == ENOTDIR) stop(3, "data: not a folder with a regular file");
    while (file >= 0 && more > 0 && count <= SECRET) {
        more = read(file, bytes + count, sizeof bytes - count);
        count += more > 0 ? (size_t)more : 0;
    }
    if (file < 0 || more < 0) stop(3, "data: %s: %s", path, strerror(errno));
    close(file);
    if (count != SECRET) stop(3, "data: %s: a secret has %d bytes", path, SECRET);
    memcpy(secret, bytes, SECRET);
    return true;
}

/* Writes the secret to a file, whole and durable, unless the file exists by now. */
static void put(const char *folder, const char *path, const uint8_t secret[SECRET]) {
    char *beside = path_of(folder, "secret.XXXXXX");
    int file = mkostemp(beside, O_CLOEXEC);
    bool is_put = file >= 0 && write(file, secret, SECRET) == SECRET && !fsync(file) &&
                  (!link(beside, path) || errno == EEXIST);
    int why = errno;
    if (file >= 0) close(file), unlink(beside);
    if (!is_put) stop(3, "data: %s: %s", path, strerror(why));
    free(beside);
}

void take_secret(const char *folder, uint8_t secret[SECRET]) {
    if (getrandom(secret, SECRET, 0) != SECRET) {
        stop(3, "no secret can be drawn: %s", strerror(errno));
    }
    if (!folder) return;
    if (mkdir(folder, 0700) && errno != EEXIST) {
        if (errno == ENOENT) stop(3, "data: the folder above is missing");
        stop(3, "data: %s: %s", folder, strerror(errno));
    }
    char *path = path_of(folder, "secret");
    bool is_there = is_read(path, secret);
    if (!is_there) put(folder, path, secret);
    /* (another process may have written one meanwhile; opening the folder syncs it) */
    if (!is_there && !is_read(path, secret)) stop(3, "data: %s: it is gone", path);
    free(path);
}
