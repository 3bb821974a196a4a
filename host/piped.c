/* The front end of the server: it runs in a child, behind two pipes.

   The child is the proved program zk_serve. It receives the secret first. Then it takes messages
   and answers them with chunks, in the records of crates/zdaemon/specs. Inputs wait here until
   front_keep, which sends them together: so they are one batch, and one commit. The answer ends
   before any other input is sent.

   If the child ends, the server ends with the child's status. What wasn't acknowledged then is
   lost; with a folder, what was acknowledged is durable. The child ends when its input does: so
   a batch in flight at SIGINT or SIGTERM, which it blocks, is finished. It is killed when this
   process dies, so that the folder's lock is free for the next start. Such a kill is a crash
   like any other. */
#define _GNU_SOURCE
#include <errno.h>
#include <poll.h>
#include <stdio.h>
#include <stdlib.h>
#include <string.h>
#include <unistd.h>
#include "child.h"
#include "front.h"
#include "logins.h"
#include "notes.h"

/* The tags of records, and their limits. */
enum { OPENED, CAME, ENDED, TICK, KEEP };
enum { CHUNK, END };
enum { MOST_CAME = 65536 };

static struct child child = {.name = "zk_serve"};
/* The inputs that wait. */
static uint8_t *inputs;
static size_t count, room;
/* The part of the answer that was read but not yet used: `block` from `at` to `end`. */
static uint8_t block[65536];
static size_t at, end;
/* The next chunk's connection, and how many of its bytes are still to come. */
static enum next next = NOTHING;
static uint32_t connection;
static size_t length;

/* ---- inputs */

/* Makes room for this many more bytes. */
static uint8_t *put(size_t more) {
    while (room - count < more) {
        room = room ? 2 * room : sizeof block;
        if (!(inputs = realloc(inputs, room))) stop(1, "out of memory");
    }
    count += more;
    return inputs + count - more;
}

static void put_number(uint32_t number) {
    uint8_t *to = put(4);
    for (int i = 0; i < 4; i++) to[i] = (uint8_t)(number >> (24 - 8 * i));
}

static void put_tag(uint8_t tag) { *put(1) = tag; }

void front_opened(uint32_t number) {
    put_tag(OPENED);
    put_number(number);
}

void front_came(uint32_t number, const uint8_t *bytes, size_t size) {
    while (size) {
        size_t part = size < MOST_CAME ? size : MOST_CAME;
        put_tag(CAME);
        put_number(number);
        put_number((uint32_t)part);
        memcpy(put(part), bytes, part);
        bytes += part, size -= part;
    }
}

void front_ended(uint32_t number) {
    put_tag(ENDED);
    put_number(number);
}

void front_tick(void) { put_tag(TICK); }

/* ---- the answer */

/* Waits until the child answers, or a signal ends this process. What takes long is told. */
static void wait_for_child(const char *what, int signals) {
    struct pollfd ends[] = {
        {.fd = child.from, .events = POLLIN}, {.fd = signals, .events = POLLIN}};
    uint64_t began = now(), took = 0, told = LONG;
    while (poll(ends, 2, took < told ? (int)(told - took) : 0) <= 0) {
        took = now() - began;
        if (took < told) continue;
        fprintf(stderr, "zk: %s: %llu s so far\n", what, (unsigned long long)told / 1000);
        told *= 2;
    }
    if (ends[1].revents) exit(0);
}

/* Takes this many bytes of the answer. */
static void take_bytes(uint8_t *to, size_t size) {
    while (size) {
        if (at == end) {
            ssize_t came = read(child.from, block, sizeof block);
            if (came < 0 && errno == EINTR) continue;
            if (came <= 0) end_with(&child);
            at = 0, end = (size_t)came;
        }
        size_t part = end - at < size ? end - at : size;
        memcpy(to, block + at, part);
        to += part, size -= part, at += part;
    }
}

static uint32_t take_number(void) {
    uint8_t bytes[4];
    take_bytes(bytes, 4);
    return (uint32_t)bytes[0] << 24 | (uint32_t)bytes[1] << 16 | (uint32_t)bytes[2] << 8 | bytes[3];
}

/* Takes what precedes the bytes of the next chunk, or the end. */
static void take_head(void) {
    uint8_t tag, is_last;
    take_bytes(&tag, 1);
    next = NOTHING, connection = 0, length = 0;
    if (tag == END) return;
    connection = take_number();
    take_bytes(&is_last, 1);
    length = take_number();
    if (tag != CHUNK || is_last > 1) stop(1, "zk_serve sent no chunk: %u, %u", tag, is_last);
    next = is_last ? LAST_ONE : ONE;
}

/* Sends bytes to the child. */
static void send_to_child(const uint8_t *bytes, size_t size) {
    while (size) {
        ssize_t part = write(child.to, bytes, size);
        if (part < 0 && errno == EINTR) continue;
        if (part < 0) end_with(&child);
        bytes += part, size -= (size_t)part;
    }
}

bool front_keep(void) {
    if (!count) return false;
    put_tag(KEEP);
    send_to_child(inputs, count);
    count = 0;
    wait_for_child("a batch", -1);
    if (room > 1 << 20) free(inputs), inputs = NULL, room = 0;
    take_head();
    return true;
}

enum next front_next(uint32_t *number) {
    *number = connection;
    return next;
}

size_t front_take(uint8_t *to, size_t left) {
    size_t taken = length;
    if (next == NOTHING || taken > left) return taken;
    take_bytes(to, taken);
    take_head();
    return taken;
}

/* ---- its beginning and its end */

/* Starts the child: in memory alone if no folder is named. */
static void start_child(const struct words *words) {
    const char *folder = words->data && !strcmp(words->data, "-") ? "./-" : words->data;
    const long numbers[] = {
        words->servers, words->journal, words->tick, (long)date(), words->watches, words->each,
        words->nodes, words->sessions, words->longest, words->bytes, words->parts};
    enum { COUNT = sizeof numbers / sizeof *numbers, SHARED = 2 };
    char texts[COUNT][24], *given[COUNT + 4] = {(char *)words->program};
    int count = 1;
    if (folder) given[count++] = (char *)folder, given[count++] = (char *)words->sync;
    else given[count++] = "-";
    for (int i = folder ? 0 : SHARED; i < COUNT; i++) {
        snprintf(texts[i], sizeof texts[i], "%ld", numbers[i]);
        given[count++] = texts[i];
    }
    child_start(&child, given);
}

/* Sends the text of the logins, if there are some. */
static void send_logins(uint8_t *text, size_t size) {
    *put(1) = text != NULL;
    if (text) put_number((uint32_t)size), memcpy(put(size), text, size);
    send_to_child(inputs, count);
    explicit_bzero(inputs, count);
    free(text);
    count = 0;
}

void front_open(const struct words *words, const uint8_t secret[SECRET], int signals) {
    size_t size = 0;
    uint8_t *logins = words->auth ? logins_in(words->auth, &size) : NULL;
    start_child(words);
    send_to_child(secret, SECRET);
    send_logins(logins, size);
    wait_for_child("opening", signals);
    take_head();
}

void front_close(void) {
    int status = child_status(&child);
    free(inputs);
    if (status) exit(status);
}
