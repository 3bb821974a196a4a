/* Preloaded into a program. Each call adds a letter to the file that NOTED names: w is a write to a
   file, s a sync of the file written last, o another sync, and r a write to standard output; u
   removes a name, c cuts a file by 1 MiB or less, and l by more. While the file that FAULTS names is
   there, that many syncs succeed, and the next fails; or no lock is.
   Before the call with the number AT, of those that change files or names, the program gets the
   signal SENT: calls are counted from 0 on, with FROM from the first link on. */
#define _GNU_SOURCE
#include <errno.h>
#include <fcntl.h>
#include <signal.h>
#include <stdlib.h>
#include <string.h>
#include <sys/stat.h>
#include <sys/syscall.h>
#include <unistd.h>

static int written, syncs, calls, has_begun;

/* Comes before each call that changes files or their names. */
static void count(int is_link) {
    has_begun |= is_link || !getenv("FROM");
    if (!getenv("SENT") || !has_begun || calls++ != atoi(getenv("AT"))) return;
    kill(getpid(), atoi(getenv("SENT")));
}

static void note(char letter) {
    const char *name = getenv("NOTED");
    int noted = name ? open(name, O_WRONLY | O_APPEND | O_CREAT | O_CLOEXEC, 0600) : -1;
    if (noted < 0) return;
    syscall(SYS_write, noted, &letter, 1);
    close(noted);
}

ssize_t write(int file, const void *from, size_t size) {
    if (file > 2) count(0);
    note(file > 2 ? 'w' : 'r');
    return syscall(SYS_write, file > 2 ? written = file : file, from, size);
}

ssize_t pwrite(int file, const void *from, size_t size, off_t at) {
    count(0);
    note('w');
    return syscall(SYS_pwrite64, written = file, from, size, at);
}

/* Does this call, or fails with a number where the file of faults says this. */
static int done(long call, int file, int how, const char *fault, int number) {
    char said[16] = {0};
    int faults = getenv("FAULTS") ? open(getenv("FAULTS"), O_RDONLY | O_CLOEXEC) : -1;
    if (faults >= 0) syscall(SYS_read, faults, said, sizeof said - 1), close(faults);
    if (faults < 0 || (fault ? strcmp(said, fault) : syncs++ != atoi(said))) {
        return (int)syscall(call, file, how);
    }
    errno = number;
    return -1;
}

static int synced(long call, int file) {
    count(0);
    int status = done(call, file, 0, NULL, EIO);
    note(file == written ? 's' : 'o');
    return status;
}

int fsync(int file) { return synced(SYS_fsync, file); }
int fdatasync(int file) { return synced(SYS_fdatasync, file); }
int flock(int file, int how) { return done(SYS_flock, file, how, "flock", ENOLCK); }

int link(const char *from, const char *to) {
    count(1);
    return syscall(SYS_linkat, AT_FDCWD, from, AT_FDCWD, to, 0);
}

int rename(const char *from, const char *to) {
    count(0);
    return syscall(SYS_renameat2, AT_FDCWD, from, AT_FDCWD, to, 0);
}

int unlink(const char *path) {
    count(0);
    note('u');
    return syscall(SYS_unlinkat, AT_FDCWD, path, 0);
}

int ftruncate(int file, off_t size) {
    struct stat found;
    count(0);
    note(!fstat(file, &found) && found.st_size - size > 1 << 20 ? 'l' : 'c');
    return syscall(SYS_ftruncate, file, size);
}
