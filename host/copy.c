/* A copy of the journal of a folder that a server uses, in all its parts (parts.h).

   A block is a commit byte, its content, and a byte 0. It is written whole, then its commit byte is
   set, and then the next block is begun. So the bytes that the file has when it is opened are whole
   blocks, but for the last one, which may be unfinished. Its commit byte may be set while they are
   copied, and its end isn't among them. So the copy ends with the last block that is there whole.
   That is one of the last part: nothing is written to those before.

   A compaction gives the name of a part to a new file. Then it cuts the old one to nothing, and
   removes the parts before. And a new part takes the name of the last one. So if a part has lost its
   name once all are copied, they are copied anew. */
#define _GNU_SOURCE
#include <dirent.h>
#include <errno.h>
#include <fcntl.h>
#include <limits.h>
#include <signal.h>
#include <stdbool.h>
#include <stdio.h>
#include <stdlib.h>
#include <string.h>
#include <sys/file.h>
#include <sys/mman.h>
#include <sys/sendfile.h>
#include <sys/stat.h>
#include <sys/wait.h>
#include <unistd.h>
#include "parts.h"
#include "start.h"

/* The folder, and that of its copy. */
static const char *folder;
static char place[PATH_MAX];
/* The parts of the journal, from the last one on, as far as they are open. */
static struct part *parts;
static size_t part_count;

/* Copies so many bytes, or those that there are. Returns whether it could. */
static bool is_copied(int from, int to, off_t left) {
    while (left > 0) {
        ssize_t count = sendfile(to, from, NULL, (size_t)(left < 1 << 30 ? left : 1 << 30));
        if (count < 0 && errno == EINTR) continue;
        if (count < 0) return false;
        if (count == 0) break;
        left -= count;
    }
    return true;
}

/* The length of the blocks that are whole and whose commit byte is set. */
static size_t whole_blocks(const char *bytes, size_t count) {
    const char *at = bytes, *end = bytes + count, *last;
    while (at < end && *at == 1 && (last = memchr(at, 0, (size_t)(end - at)))) at = last + 1;
    return (size_t)(at - bytes);
}

/* Cuts the copy of the last part after its last block that is whole. Blocks begin after so many
   bytes. Returns whether it could. */
static bool is_cut(int file, size_t skip) {
    struct stat found;
    if (fstat(file, &found)) return false;
    size_t count = (size_t)found.st_size;
    if (count <= skip) return true;
    char *bytes = mmap(NULL, count, PROT_READ, MAP_SHARED, file, 0);
    if (bytes == MAP_FAILED) return false;
    size_t whole = skip + whole_blocks(bytes + skip, count - skip);
    return !munmap(bytes, count) && !ftruncate(file, (off_t)whole);
}

/* Removes all files of the copy. */
static void empty_place(void) {
    DIR *at = opendir(place);
    for (struct dirent *it; at && (it = readdir(at));) {
        if (*it->d_name != '.') unlinkat(dirfd(at), it->d_name, 0);
    }
    if (at) closedir(at);
}

static void remove_copy(void) {
    empty_place();
    rmdir(place);
}

/* Makes the folder of the copy. */
static void make_place(void) {
    const char *top = getenv("TMPDIR");
    snprintf(place, sizeof place, "%s/jellqupas-XXXXXX", top && *top ? top : "/tmp");
    if (!mkdtemp(place)) stop(3, "%s: %s", place, strerror(errno));
}

/* Makes the copy of a part. */
static void make_copy(struct part it) {
    struct stat found;
    char name[PART_NAME], path[sizeof place + PART_NAME];
    part_name(name, it.number);
    snprintf(path, sizeof path, "%s/%s", place, name);
    int to = open(path, O_RDWR | O_CREAT | O_EXCL | O_CLOEXEC, 0600);
    bool is_made = to >= 0 && !fstat(it.file, &found) && is_copied(it.file, to, found.st_size) &&
                   (it.number || is_cut(to, part_before(it) ? AFTER : 0)) && !close(to);
    int why = errno;
    if (!is_made) remove_copy(), stop(3, "%s: %s", path, strerror(why));
}

/* Opens a part. Returns whether it could. */
static bool is_opened(uint64_t number) {
    struct part it = part_opened(folder, number);
    if (it.file < 0) return false;
    if (!(parts = realloc(parts, (part_count + 1) * sizeof *parts))) stop(1, "out of memory");
    parts[part_count++] = it;
    return true;
}

static void close_parts(void) {
    while (part_count) close(parts[--part_count].file);
}

/* Opens the last part. Returns whether a server uses it. */
static bool is_used(void) {
    return is_opened(0) && flock(parts->file, LOCK_SH | LOCK_NB) && errno == EWOULDBLOCK;
}

/* Whether all parts that are open still have their names. */
static bool have_names(void) {
    struct stat own, named;
    char name[PART_NAME], path[PATH_MAX + PART_NAME];
    for (size_t i = 0; i < part_count; i++) {
        part_name(name, parts[i].number);
        snprintf(path, sizeof path, "%s/%s", folder, name);
        if (fstat(parts[i].file, &own) || stat(path, &named) || own.st_dev != named.st_dev ||
            own.st_ino != named.st_ino) {
            return false;
        }
    }
    return true;
}

/* Opens the parts before the last one. Returns whether it could: a compaction may have removed one.
   (before that it took the name of another one) */
static bool are_opened(void) {
    uint64_t before;
    while ((before = part_before(parts[part_count - 1]))) {
        if (is_opened(before)) continue;
        int why = errno;
        if (why == ENOENT && !have_names()) return false;
        remove_copy();
        stop(3, "data: %s/journal.%llu: %s", folder, (unsigned long long)before, strerror(why));
    }
    return true;
}

/* Copies the parts that are open. Returns whether all of them still have their names then. */
static bool are_copied(void) {
    for (size_t i = 0; i < part_count; i++) make_copy(parts[i]);
    return have_names();
}

const char *copied(const char *of) {
    bool is_it = false;
    folder = of;
    while (!is_it && is_used()) {
        if (!*place) make_place();
        empty_place();
        is_it = are_opened() && are_copied();
        close_parts();
    }
    close_parts();
    if (!is_it && *place) remove_copy();
    return is_it ? place : NULL;
}

_Noreturn void end_after(char *const words[]) {
    int status = 0;
    /* (a signal ends the child, and then the copy is removed) */
    signal(SIGINT, SIG_IGN), signal(SIGTERM, SIG_IGN);
    pid_t child = fork();
    if (!child) {
        signal(SIGINT, SIG_DFL), signal(SIGTERM, SIG_DFL);
        execv(words[0], words);
        fprintf(stderr, "zk: %s: %s\n", words[0], strerror(errno));
        _exit(3);
    }
    while (child > 0 && waitpid(child, &status, 0) < 0 && errno == EINTR) continue;
    remove_copy();
    if (child < 0) stop(3, "no process: %s", strerror(errno));
    exit(WIFEXITED(status) ? WEXITSTATUS(status) : 1);
}
