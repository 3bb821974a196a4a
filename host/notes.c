/* Lines for whoever runs the server: which limit was met, and what was slow. */
#include <stdarg.h>
#include <stdio.h>
#include "notes.h"
#include "start.h"

struct counts counts;

/* When the last line of each kind was printed, and how many were left out since. */
static uint64_t said_at[KINDS];
static unsigned long left_out[KINDS];

void note(enum kind kind, const char *format, ...) {
    va_list words;
    counts.noted[kind]++;
    if (said_at[kind] && now() - said_at[kind] < QUIET) {
        left_out[kind]++;
        return;
    }
    va_start(words, format);
    fputs("zk: ", stderr);
    vfprintf(stderr, format, words);
    if (left_out[kind]) fprintf(stderr, " (and %lu times since the last such line)", left_out[kind]);
    fputc('\n', stderr);
    va_end(words);
    said_at[kind] = now(), left_out[kind] = 0;
}
