/* Preloaded into a program: before it first copies a file, the file that NEW names takes the name
   OLD, the one that had it is cut to nothing, and GONE is removed, as in a compaction. */
#define _GNU_SOURCE
#include <fcntl.h>
#include <stdio.h>
#include <stdlib.h>
#include <sys/syscall.h>
#include <unistd.h>

ssize_t sendfile(int to, int from, off_t *at, size_t size) {
    int old = open(getenv("OLD"), O_WRONLY | O_CLOEXEC);
    if (!rename(getenv("NEW"), getenv("OLD"))) {
        if (ftruncate(old, 0)) abort();
        unlink(getenv("GONE"));
    }
    close(old);
    return syscall(SYS_sendfile, to, from, at, size);
}
