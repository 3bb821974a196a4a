/* Preloaded into a program: while the file that FULL names is there, the disk has no room for a
   file journal.new or journal.begin of more than 4,096 bytes. If the file that FULL names has
   bytes, it has none at all. */
#define _GNU_SOURCE
#include <errno.h>
#include <fcntl.h>
#include <stdarg.h>
#include <stdio.h>
#include <stdlib.h>
#include <string.h>
#include <sys/stat.h>
#include <sys/syscall.h>
#include <unistd.h>

enum { ROOM = 4096 };

static int is_new(const char *path) {
    const char *name = strrchr(path, '/');
    return name && (!strcmp(name, "/journal.new") || !strcmp(name, "/journal.begin"));
}

/* The room that a file has, which is `size` where the disk isn't full. */
static ssize_t room(int file, size_t size) {
    char link[32], path[4096] = "";
    struct stat it;
    snprintf(link, sizeof link, "/proc/self/fd/%d", file);
    if (readlink(link, path, sizeof path - 1) < 0 || !is_new(path)) return size;
    if (access(getenv("FULL"), F_OK) || fstat(file, &it)) return size;
    if (it.st_size < ROOM) return it.st_size + size > ROOM ? ROOM - it.st_size : (ssize_t)size;
    errno = ENOSPC;
    return -1;
}

int open(const char *path, int flags, ...) {
    struct stat it;
    va_list more;
    va_start(more, flags);
    int mode = flags & O_CREAT ? va_arg(more, int) : 0;
    va_end(more);
    if (is_new(path) && !stat(getenv("FULL"), &it) && it.st_size) return errno = ENOSPC, -1;
    return syscall(SYS_openat, AT_FDCWD, path, flags, mode);
}

ssize_t write(int file, const void *from, size_t size) {
    ssize_t left = room(file, size);
    return left < 0 ? left : syscall(SYS_write, file, from, left);
}

ssize_t pwrite(int file, const void *from, size_t size, off_t at) {
    ssize_t left = room(file, size);
    return left < 0 ? left : syscall(SYS_pwrite64, file, from, left, at);
}
