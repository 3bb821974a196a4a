/* Preloaded into a program: one call of the allocator fails, the one whose number REFUSED says.

   Calls are counted from 1, once the program has begun; at 0 all succeed. At the end the number of
   calls is written on standard error. */
#define _GNU_SOURCE
#include <errno.h>
#include <stdatomic.h>
#include <stdio.h>
#include <stdlib.h>
#include <sys/syscall.h>
#include <unistd.h>

/* The allocator of glibc, under its other names. */
void *__libc_malloc(size_t size);
void *__libc_calloc(size_t count, size_t size);
void *__libc_realloc(void *block, size_t size);
void *__libc_memalign(size_t alignment, size_t size);

static int has_begun;
static unsigned long refused;
static atomic_ulong calls;

__attribute__((constructor)) static void begin(void) {
    const char *number = getenv("REFUSED");
    refused = number ? strtoul(number, NULL, 10) : 0;
    has_begun = 1;
}

__attribute__((destructor)) static void end(void) {
    has_begun = 0;
    dprintf(STDERR_FILENO, "%lu allocations\n", atomic_load(&calls));
}

/* A program with threads ends so, without destructors. */
void _exit(int status) {
    end();
    for (;;) syscall(SYS_exit_group, status);
}

static int is_refused(void) {
    if (!has_begun || atomic_fetch_add(&calls, 1) + 1 != refused) return 0;
    return errno = ENOMEM, 1;
}

void *malloc(size_t size) { return is_refused() ? NULL : __libc_malloc(size); }
void *calloc(size_t count, size_t size) { return is_refused() ? NULL : __libc_calloc(count, size); }
void *realloc(void *old, size_t size) { return is_refused() ? NULL : __libc_realloc(old, size); }
void *memalign(size_t to, size_t size) { return is_refused() ? NULL : __libc_memalign(to, size); }
void *aligned_alloc(size_t to, size_t size) { return memalign(to, size); }

int posix_memalign(void **block, size_t to, size_t size) {
    void *found = memalign(to, size);
    if (found) *block = found;
    return found ? 0 : ENOMEM;
}
