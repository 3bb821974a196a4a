/* load DEPTH CALLS REQUEST ANSWER TO FROM ..: sends requests over connections.

   Each connection is two sockets that are open: TO has its requests, and FROM its answers. They may
   be one. Standard input is a file of requests of REQUEST bytes each, whose answers have ANSWER
   bytes each. Every connection sends its own part of them, again and again, with DEPTH under way.
   It prints the seconds that CALLS of them took together, and the median of what each took. */
#define _GNU_SOURCE
#include <errno.h>
#include <poll.h>
#include <stdbool.h>
#include <stdio.h>
#include <stdlib.h>
#include <string.h>
#include <sys/mman.h>
#include <sys/stat.h>
#include <time.h>
#include <unistd.h>

enum { MOST = 64, MOST_DEPTH = 256 };
static struct {
    size_t sent, came;
    int to;
    /* When each request under way was sent. */
    double begun[MOST_DEPTH];
} all[MOST];
static struct pollfd sockets[MOST];
static char room[1 << 18];
/* The requests, of which each connection has a part, and sends some number in all. */
static const char *text;
static size_t depth, each, request, answer, part;
/* The seconds of each call that was answered. */
static double *times;
static size_t answered;

static void stop(const char *why) {
    fprintf(stderr, "load: %s: %s\n", why, strerror(errno));
    exit(1);
}

static double now(void) {
    struct timespec at;
    clock_gettime(CLOCK_MONOTONIC, &at);
    return at.tv_sec + at.tv_nsec * 1e-9;
}

static int compare(const void *a, const void *b) {
    double left = *(const double *)a, right = *(const double *)b;
    return (left > right) - (left < right);
}

/* Sends what a connection may send at once. */
static void send_more(size_t i) {
    size_t at = all[i].sent % part, more = depth + all[i].came / answer - all[i].sent;
    if (more > each - all[i].sent) more = each - all[i].sent;
    if (more > part - at) more = part - at;
    if (!more) return;
    size_t size = more * request;
    double here = now();
    while (more--) all[i].begun[all[i].sent++ % depth] = here;
    if (write(all[i].to, text + (i * part + at) * request, size) != (ssize_t)size) stop("a write");
}

/* Takes what came of a connection. Returns whether all its calls are answered. */
static bool take(size_t i) {
    ssize_t came = read(sockets[i].fd, room, sizeof room);
    if (came <= 0) stop("the server has closed a connection");
    size_t first = all[i].came / answer, last = (all[i].came += came) / answer;
    double here = now();
    while (first < last) times[answered++] = here - all[i].begun[first++ % depth];
    return all[i].came == each * answer;
}

int main(int count, char **words) {
    struct stat file;
    if (count < 7 || count % 2 == 0 || count > 5 + 2 * MOST || fstat(0, &file)) return 2;
    size_t connections = (count - 5) / 2, done = 0;
    depth = atoi(words[1]), each = atol(words[2]) / connections;
    request = atoi(words[3]), answer = atoi(words[4]);
    part = file.st_size / request / connections;
    text = mmap(NULL, file.st_size, PROT_READ, MAP_PRIVATE, 0, 0);
    times = calloc(each * connections, sizeof *times);
    if (!times || text == MAP_FAILED || !part || !each || depth > MOST_DEPTH) return 2;
    for (size_t i = 0; i < connections; i++) {
        all[i].to = atoi(words[5 + 2 * i]);
        sockets[i] = (struct pollfd){atoi(words[6 + 2 * i]), POLLIN, 0};
    }
    double began = now();
    while (done < connections) {
        for (size_t i = 0; i < connections; i++) send_more(i);
        if (poll(sockets, connections, 30000) <= 0) stop("no answer, or one of another length");
        for (size_t i = 0; i < connections; i++) {
            if (sockets[i].revents) done += take(i);
        }
    }
    double took = now() - began;
    qsort(times, answered, sizeof *times, compare);
    printf("%.9f %.9f\n", took, times[answered / 2]);
    return 0;
}
