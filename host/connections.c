/* What is sent on connections, the bounds on what waits, and how connections end. */
#define _GNU_SOURCE
#include <errno.h>
#include <stdlib.h>
#include <string.h>
#include <sys/epoll.h>
#include <sys/socket.h>
#include <unistd.h>
#include "connections.h"
#include "front.h"
#include "journal.h"
#include "monitors.h"
#include "notes.h"
#include "start.h"
#include "strangers.h"

enum {
    /* The bytes to be sent, and those of unfinished requests, of all connections together. If
       there are more, the connection with the most of them is closed. (The front stores 16 MiB of
       unfinished requests, and closes the connection whose bytes don't fit: here it never does.) */
    HELD = 64 << 20,
    UNFINISHED = 15 << 20
};

uint32_t places;
struct connection *all;
int events;
size_t unfinished, asked;
/* No place below this one is free. */
static uint32_t lowest = 1;
/* The bytes to be sent, on all connections together. */
static size_t held;
/* The connections with new chunks, and those that are GONE. */
static uint32_t *touched, *gone;
static size_t touched_count, gone_count;

void make_places(uint32_t count) {
    places = count;
    all = calloc(count + 1, sizeof *all);
    touched = calloc(count + 1, sizeof *touched), gone = calloc(count + 1, sizeof *gone);
    if (!all || !touched || !gone) stop(1, "out of memory");
}

bool is_there(const struct connection *it) {
    return it->state == OPEN || it->state == LAST;
}

size_t owed(const struct connection *it) { return it->count - it->sent; }

size_t unread(void) { return held; }

/* A free number, or one above those that there are. One that has been sent all, and its end, makes room if need be:
   its client may never close it. */
static uint32_t free_number(void) {
    while (lowest <= places && all[lowest].state != FREE) lowest++;
    for (uint32_t i = 1; lowest > places && i <= places; i++) {
        if (all[i].state == LAST && !owed(&all[i])) shut(i), end_gone();
    }
    return lowest;
}

bool is_opened(int socket) {
    uint32_t number = free_number();
    struct epoll_event event = {.events = EPOLLIN, .data.u32 = number};
    if (number > places) note(REFUSED, "a connection is refused: %u are served at once", places);
    if (number > places || epoll_ctl(events, EPOLL_CTL_ADD, socket, &event)) return false;
    all[number] = (struct connection){
        .state = OPEN, .socket = socket, .events = EPOLLIN, .until = now() + PATIENCE,
        .seen.since = date()};
    front_opened(number);
    counts.accepted++;
    return true;
}

/* Makes room for this many more bytes. */
static void make_room(struct connection *it, size_t more) {
    if (it->room - it->count >= more) return;
    size_t left = owed(it), room = it->room ? it->room : 4096;
    while (room - left < more) room *= 2;
    if (it->sent) memmove(it->out, it->out + it->sent, left);
    if (room > it->room) it->out = realloc(it->out, room);
    if (!it->out) stop(1, "out of memory");
    it->sent = 0, it->count = left, it->room = room;
}

/* Waits for these events of a connection from now on. */
static void wait_for(uint32_t number, uint32_t wanted) {
    struct connection *it = &all[number];
    struct epoll_event event = {.events = wanted, .data.u32 = number};
    if (wanted != it->events) epoll_ctl(events, EPOLL_CTL_MOD, it->socket, &event);
    it->events = wanted;
}

void shut(uint32_t number) {
    struct connection *it = &all[number];
    if (!is_there(it)) return;
    held -= owed(it), unfinished -= it->part;
    close(it->socket);
    free(it->out);
    *it = (struct connection){.state = GONE, .is_touched = it->is_touched};
    gone[gone_count++] = number;
}

/* Closes those that are owed most, if too much is owed, unless they take it now. */
static void bound_owed(void) {
    while (held > HELD) {
        uint32_t most = 1;
        for (uint32_t i = 2; i <= places; i++) {
            if (owed(&all[i]) > owed(&all[most])) most = i;
        }
        send_on(most);
        if (held <= HELD) return;
        note(UNREAD, "a connection is closed: clients leave %d MiB unread", HELD >> 20);
        shut(most);
    }
}

void bound_unfinished(void) {
    while (unfinished > UNFINISHED) {
        uint32_t most = 1;
        for (uint32_t i = 2; i <= places; i++) {
            if (all[i].part > all[most].part) most = i;
        }
        note(LONG_REQUESTS, "a connection is closed: %d MiB of requests are unfinished",
             UNFINISHED >> 20);
        shut(most);
    }
}

/* The connection of the next chunk. A wrong number, and a wrong length, end the server. */
static struct connection *connection_of(uint32_t number) {
    if (number >= 1 && number <= places && all[number].state != FREE) return &all[number];
    stop(1, "zk_serve sent a chunk of connection %u, which isn't there", number);
}

/* Counts a batch that took so long. */
static void counted(uint64_t took) {
    if (!counts.batches || took < counts.shortest_us) counts.shortest_us = took;
    if (took > counts.longest_us) counts.longest_us = took;
    counts.batches++, counts.batch_us += took;
    counts.requests += asked, counts.latency_us += took * asked, counts.outstanding = asked - 1;
    took /= 1000;
    if (took >= SLOW) note(SLOW_BATCH, "a batch took %llu ms", (unsigned long long)took);
}

/* Puts the answer to a monitor's word in the place of what the front says. Returns its length. */
static size_t answered(struct connection *it, size_t count) {
    size_t length;
    char *text = monitors_answer(it->word, it->out + it->count, count, &length);
    make_room(it, length);
    memcpy(it->out + it->count, text, length);
    free(text);
    return length;
}

void take(void) {
    uint32_t number;
    enum next next;
    uint64_t began = now_us();
    if (front_keep()) {
        uint64_t took = now_us() - began;
        if (asked) counted(took);
        journal_look();
    }
    asked = 0;
    while ((next = front_next(&number)) != NOTHING) {
        struct connection *it = connection_of(number);
        size_t count = 4096;
        do {
            if (count > HELD) stop(1, "zk_serve sent a chunk of %zu bytes", count);
            make_room(it, count);
            count = front_take(it->out + it->count, it->room - it->count);
        } while (count > it->room - it->count);
        if (it->state != OPEN) continue;
        if (!it->word) monitors_see(&it->seen, it->out + it->count, count);
        else if (count) count = answered(it, count);
        it->count += count;
        counts.chunks += count > 0;
        it->until = 0;
        if (!it->is_touched) touched[touched_count++] = number;
        it->is_touched = true;
        held += count;
        if (next == LAST_ONE) {
            if (count) it->late = refused_at(it->socket, it->out + it->count - count, count);
            it->state = LAST, it->until = (it->late ? it->late : now()) + PATIENCE;
            unfinished -= it->part, it->part = 0;
        }
        bound_owed();
    }
}

static void forget_sent(struct connection *it) {
    it->sent = it->count = 0;
    if (it->room <= 65536) return;
    free(it->out);
    it->out = NULL, it->room = 0;
}

void send_on(uint32_t number) {
    struct connection *it = &all[number];
    if (!is_there(it) || it->late > now()) return;
    while (owed(it)) {
        ssize_t sent = send(it->socket, it->out + it->sent, owed(it), MSG_NOSIGNAL);
        if (sent < 0 && errno == EINTR) continue;
        if (sent < 0 && errno == EAGAIN) break;
        if (sent < 0) {
            shut(number);
            return;
        }
        it->sent += sent, held -= sent, counts.sent += (uint64_t)sent;
    }
    if (!owed(it)) forget_sent(it);
    /* (its client closes it, or PATIENCE ends: so unread input doesn't lose what was sent) */
    if (!owed(it) && it->state == LAST) shutdown(it->socket, SHUT_WR);
    wait_for(number, (owed(it) <= OWED ? EPOLLIN : 0) | (owed(it) ? EPOLLOUT : 0));
}

void end_gone(void) {
    while (gone_count) {
        uint32_t number = gone[--gone_count];
        front_ended(number);
        if (number < lowest) lowest = number;
        free(all[number].out);
        all[number] = (struct connection){.is_touched = all[number].is_touched};
    }
}

void finish(void) {
    take();
    while (touched_count || gone_count) {
        while (touched_count) {
            uint32_t number = touched[--touched_count];
            all[number].is_touched = false;
            send_on(number);
        }
        end_gone();
    }
}
