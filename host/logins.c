/* The file of logins, as it is. */
#define _GNU_SOURCE
#include <errno.h>
#include <fcntl.h>
#include <stdlib.h>
#include <string.h>
#include <sys/stat.h>
#include <unistd.h>
#include "logins.h"
#include "start.h"

/* The most bytes of the file (MAX_LOGINS of zdaemon). */
enum { MOST_LOGINS = 1 << 20 };

static _Noreturn void refuse(const char *file, const char *why) {
    stop(2, "--auth %s: %s", file, why);
}

uint8_t *logins_in(const char *file, size_t *count) {
    struct stat of;
    int from = open(file, O_RDONLY | O_CLOEXEC | O_NONBLOCK);
    if (from < 0 || fstat(from, &of)) refuse(file, strerror(errno));
    if (!S_ISREG(of.st_mode)) refuse(file, "it isn't a file");
    if (of.st_uid != geteuid() && of.st_uid) refuse(file, "it is another user's");
    if (of.st_mode & 077) refuse(file, "others may read or write it: its mode is to be 0600");
    if (of.st_size > MOST_LOGINS) refuse(file, "it has more than a MiB");
    uint8_t *text = malloc((size_t)of.st_size + 1);
    if (!text) stop(1, "out of memory");
    *count = 0;
    while (*count < (size_t)of.st_size) {
        ssize_t came = read(from, text + *count, (size_t)of.st_size - *count);
        if (came < 0 && errno == EINTR) continue;
        if (came <= 0) refuse(file, came ? strerror(errno) : "it became shorter meanwhile");
        *count += (size_t)came;
    }
    close(from);
    return text;
}
