/* Lines for whoever runs the server, and what it counts. */
#ifndef NOTES_H
#define NOTES_H

#include <stdint.h>

/* What a line is about. */
enum kind {
    /* A connection beyond those that are served at once. */
    REFUSED,
    /* No descriptor or no memory for one more. */
    SHORT,
    /* One was closed, since too many bytes wait to be sent, or are of unfinished requests. */
    UNREAD,
    LONG_REQUESTS,
    /* A batch took longer than SLOW. */
    SLOW_BATCH,
    /* A request was refused with SystemError. */
    LIMITED,
    /* The parts of the journal before the last one were replaced by a shorter one, or weren't. */
    COMPACTED,
    UNCOMPACTED,
    KINDS
};

enum {
    /* The milliseconds between two lines of one kind, and those of a batch that is told. */
    QUIET = 60000,
    SLOW = 1000,
    /* The milliseconds after which what is waited for is told; then after twice as many, and so on. */
    LONG = 2000
};

/* What was counted since the start. `strangers` are connections that were refused, since they gave
   no login. Times are of batches, in microseconds: `latency_us` has them once for each request.
   `outstanding` are the requests of the last batch but one. */
struct counts {
    uint64_t accepted, strangers, received, sent, requests, chunks, ticks, batches, outstanding;
    uint64_t batch_us, latency_us, shortest_us, longest_us;
    uint64_t noted[KINDS];
};
extern struct counts counts;

/* Counts it, and prints a line on standard error, at most one a minute of each kind. */
void note(enum kind kind, const char *format, ...);

#endif
