/* The server for ZooKeeper's clients: sockets and a clock around a front end (front.h). It
   passes on the input, sends the front's chunks, reads the secret and gives ticks.

   Nothing here is proved. It must do what front.h requires: each connection's bytes are passed
   on once and in order; chunks are sent in order and whole, or the connection is closed; and the
   secret can't be guessed.

   One thread does everything. It waits for events of the connections, and of the signals that end
   it.

   The input of one wait is committed together and then answered. After KEPT requests a commit
   comes before more is read: replies of up to a million bytes each wait in memory until then. */
#define _GNU_SOURCE
#include <errno.h>
#include <netinet/in.h>
#include <netinet/tcp.h>
#include <stdbool.h>
#include <stdio.h>
#include <stdlib.h>
#include <string.h>
#include <sys/epoll.h>
#include <sys/socket.h>
#include <unistd.h>
#include "connections.h"
#include "front.h"
#include "jellqupas.h"
#include "journal.h"
#include "metrics.h"
#include "monitors.h"
#include "notes.h"
#include "start.h"

enum {
    /* The bytes that are read of a connection before others are, and that are passed on at a time.
       (A request has some 20 bytes or more, and its reply up to a million.) */
    READ = 16 << 10,
    HANDED = 1 << 10,
    /* The requests that are committed together. */
    KEPT = 128,
    /* Events that aren't a connection's. */
    SIGNALS = METRICS - 2,
    LISTENER,
    /* The descriptors beside those of connections. */
    OTHERS = 32,
    /* The connections that are served at once, if no word says how many. */
    PLACES = 10000
};

static int listener, signals;
/* The events of one wait: room for each connection's, and for the others'. */
static struct epoll_event *ready;
/* The milliseconds of a tick, when the next one is due, and whether it was put off. */
static uint64_t tick, ticks_at;
static bool is_put_off, is_over;

/* Gives the tick that is due. Ticks are evenly spaced, also under load. After a stall of more than
   a tick it is put off by a tick, once: the requests that wait come first. */
static void keep_time(void) {
    uint64_t at = now();
    if (at < ticks_at) return;
    bool is_stalled = at > ticks_at + tick;
    ticks_at = (is_stalled ? at : ticks_at) + tick;
    is_put_off = is_stalled && !is_put_off;
    if (!is_put_off) front_tick(), counts.ticks++;
}

/* How many requests begin in these bytes of a connection. */
static size_t begun(struct connection *it, const uint8_t *bytes, size_t count) {
    size_t found = 0;
    while (count) {
        size_t more = it->body < count ? it->body : count;
        it->body -= (uint32_t)more, it->part += more, bytes += more, count -= more;
        if (!it->body && !it->heads) it->part = 0;
        if (!count) break;
        if (!it->heads) found++;
        it->head = it->head << 8 | *bytes++, it->part++, count--;
        if (++it->heads == 4) it->body = it->head, it->head = 0, it->heads = 0;
    }
    return found;
}

/* Passes bytes of a connection on. */
static void pass_on(uint32_t number, const uint8_t *bytes, size_t count) {
    struct connection *it = &all[number];
    end_gone();
    unfinished -= it->part;
    size_t found = begun(it, bytes, count);
    unfinished += it->part;
    asked += found, it->seen.requests += found;
    front_came(number, bytes, count);
    if (asked >= KEPT) take();
    bound_unfinished();
}

/* Passes on the first bytes of a connection, once all are there: or, of a monitor's, what the front
   is asked in their place. */
static void came_first(uint32_t number, size_t count) {
    struct connection *it = &all[number];
    it->firsts += count;
    if (it->firsts < FIRST) return;
    it->word = monitors_word(it->first);
    pass_on(number, it->word ? monitors_asked(it->word) : it->first, FIRST);
}

/* Reads from a connection, as long as it takes what it is sent. */
static void read_from(uint32_t number) {
    static uint8_t block[HANDED];
    struct connection *it = &all[number];
    for (int parts = READ / HANDED; parts && is_there(it) && owed(it) <= OWED; parts--) {
        keep_time();
        size_t firsts = FIRST - it->firsts, room = firsts ? firsts : HANDED;
        uint8_t *to = firsts ? it->first + it->firsts : block;
        ssize_t count = recv(it->socket, to, room, 0);
        if (count < 0 && (errno == EAGAIN || errno == EINTR)) return;
        if (count <= 0) {
            shut(number);
            return;
        }
        counts.received += (uint64_t)count;
        if (firsts) came_first(number, (size_t)count);
        else if (it->state == OPEN && !it->word) pass_on(number, block, (size_t)count);
        if ((size_t)count < room) return;
    }
}

/* Waits for input on a descriptor from now on. Returns whether that works. */
static bool is_added(int descriptor, uint32_t number) {
    struct epoll_event event = {.events = EPOLLIN, .data.u32 = number};
    return epoll_ctl(events, EPOLL_CTL_ADD, descriptor, &event) == 0;
}

/* Accepts a connection, and closes it at once if there are too many. */
static bool is_welcomed(void) {
    int on = 1, socket = accept4(listener, NULL, NULL, SOCK_NONBLOCK | SOCK_CLOEXEC);
    if (socket < 0) {
        /* (if descriptors or memory are short, no connection is accepted for a second) */
        struct epoll_event none = {.data.u32 = LISTENER};
        if (errno == EAGAIN || errno == EINTR || errno == ECONNABORTED) return false;
        note(SHORT, "no connection is accepted for a second: %s", strerror(errno));
        epoll_ctl(events, EPOLL_CTL_MOD, listener, &none);
        return false;
    }
    if (!is_opened(socket)) return close(socket), true;
    setsockopt(socket, IPPROTO_TCP, TCP_NODELAY, &on, sizeof on);
    return true;
}

/* Waits at most this long, and handles each event once.
   (connections end before others begin: a client that closes one and opens another finds room) */
static void pass(int milliseconds) {
    int count = epoll_wait(events, ready, (int)places + OTHERS, milliseconds), most = 0;
    for (int i = 0; i < count; i++) {
        uint32_t number = ready[i].data.u32, came = ready[i].events;
        if (is_of_metrics(number)) continue;
        if (number == SIGNALS) is_over = true;
        else if (number == LISTENER) most = 64;
        else if (came & EPOLLOUT) send_on(number);
        else read_from(number);
    }
    finish();
    while (most && is_welcomed()) most--;
    finish();
}

/* Closes those whose patience has ended, and looks at the journal; once a second. */
static void look(void) {
    struct epoll_event event = {.events = EPOLLIN, .data.u32 = LISTENER};
    epoll_ctl(events, EPOLL_CTL_MOD, listener, &event);
    for (uint32_t i = 1; i <= places; i++) {
        if (all[i].until && now() >= all[i].until) shut(i);
        if (all[i].late && now() >= all[i].late) send_on(i);
    }
    metrics_look();
    journal_look();
    finish();
}

/* Serves until a signal comes. */
static void serve(void) {
    uint64_t looks_at = now() + 1000;
    ticks_at = now() + tick;
    while (!is_over) {
        uint64_t at = now(), next = ticks_at < looks_at ? ticks_at : looks_at;
        pass(at < next ? (int)(next - at) : 0);
        if (now() >= looks_at) look(), looks_at = now() + 1000;
        keep_time();
        finish();
    }
}

static const char SAID[] =
    "zk: jellqupas " JELLQUPAS_VERSION " for ZooKeeper's clients: one server, ticks of %ld ms\n"
    "zk: listening on %.*s:%u\n";
static const char FEWER[] =
    "zk: %u connections are served at once: no more descriptors may be opened\n";
static const char OPEN_TO_ALL[] =
    "zk: anyone who can connect may do everything: clients aren't authenticated\n";
static const char TO_LOGINS[] = "zk: calls are made by who gives a login of %s alone\n";

/* Prints where it listens, and what remains once it ends. */
static void say(const struct words *words, unsigned port) {
    int host = (int)(strrchr(words->listen, ':') - words->listen);
    fprintf(stderr, SAID, words->tick, host, words->listen, port);
    if (words->data) fprintf(stderr, "zk: acknowledged changes are stored in %s\n", words->data);
    else fputs("zk: all is in memory: when it ends, nothing is left\n", stderr);
    if (!words->connections && places < PLACES) fprintf(stderr, FEWER, places);
    if (words->auth) fprintf(stderr, TO_LOGINS, words->auth);
    else fputs(OPEN_TO_ALL, stderr);
}

static const char A_COPY[] = "zk: the folder is in use: this is of a copy of it, as it is now\n";

/* Becomes the program that does a task with a folder. If a server uses the folder, a copy of it is
   counted or exported. */
static _Noreturn void become(const struct words *words) {
    char *folder = strcmp(words->data, "-") ? (char *)words->data : "./-", servers[24];
    tell_time(words->task);
    const char *copy = strcmp(words->task, "compact") ? copied(folder) : NULL;
    char *of = copy ? (char *)copy : folder;
    char *own[] = {(char *)words->program, of, (char *)words->task, servers, NULL};
    snprintf(servers, sizeof servers, "%d", servers_of(of));
    if (copy) fputs(A_COPY, stderr), end_after(own);
    execv(own[0], own);
    stop(3, "%s: %s", own[0], strerror(errno));
}

/* Makes the places of connections: as many as a word says, or as descriptors allow. */
static void settle(long wanted) {
    long count = wanted ? wanted : PLACES, most = make_ready((unsigned)count + OTHERS) - OTHERS;
    if (wanted > most || most < 1) {
        stop(3, "--connections %ld: %ld descriptors may be opened", count, most + OTHERS);
    }
    make_places((uint32_t)(count < most ? count : most));
    ready = calloc(places + OTHERS, sizeof *ready);
    if (!ready) stop(1, "out of memory");
}

int main(int count, char **given) {
    struct words words = understood(given + (count > 0));
    if (words.task) become(&words);
    unsigned port;
    uint8_t secret[SECRET];
    settle(words.connections);
    signals = ending_signals();
    listener = listening_at(words.listen, &port);
    events = epoll_create1(EPOLL_CLOEXEC);
    take_secret(words.data, secret);
    words.servers = words.data ? servers_of(words.data) : 1;
    front_open(&words, secret, signals);
    explicit_bzero(secret, sizeof secret);
    say(&words, port);
    if (!is_added(signals, SIGNALS) || !is_added(listener, LISTENER)) {
        stop(3, "nothing can be waited for: %s", strerror(errno));
    }
    journal_open(&words);
    monitors_open(&words, port);
    if (words.metrics) metrics_open(&words);
    tick = (uint64_t)words.tick;
    serve();
    for (uint32_t i = 1; i <= places; i++) shut(i);
    for (uint32_t i = 1; i <= places; i++) free(all[i].out);
    free(ready);
    front_close();
    return 0;
}
