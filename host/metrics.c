/* What the server counts, in Prometheus' text form.

   The front is asked by the word `mntr`, as any client may ask it: on a connection whose other end
   is here. So its counts include that connection, which is taken off again. */
#define _GNU_SOURCE
#include <errno.h>
#include <stdarg.h>
#include <stdio.h>
#include <stdlib.h>
#include <string.h>
#include <sys/epoll.h>
#include <sys/socket.h>
#include <unistd.h>
#include "connections.h"
#include "journal.h"
#include "metrics.h"
#include "notes.h"
#include "start.h"

/* One who reads metrics: its socket, the end of the front's connection, and what came of each. */
struct reader {
    int socket, front;
    char asked[2048], told[4096];
    size_t asked_count, told_count;
    uint64_t until;
};

static struct reader readers[READERS];
static int listener = -1;
/* What the words ask for: the limits that are told. */
static const struct words *limits;
/* The answer that is being made, and its length. */
static char text[16384];
static size_t length;

static void put(const char *format, ...) {
    va_list words;
    va_start(words, format);
    int count = vsnprintf(text + length, sizeof text - length, format, words);
    va_end(words);
    if (count > 0 && (size_t)count < sizeof text - length) length += (size_t)count;
}

static void put_one(const char *type, const char *name, uint64_t value) {
    put("# TYPE %s %s\n%s %llu\n", name, type, name, (unsigned long long)value);
}

static void put_counts(void) {
    static const char *const kinds[KINDS] = {
        "connections_refused", "accepts_failed", "closed_unread", "closed_long_requests",
        "slow_batches", "requests_limited", "compactions", "compactions_failed"};
    put_one("counter", "jellqupas_connections_accepted", counts.accepted);
    put_one("counter", "jellqupas_strangers_refused", counts.strangers);
    put_one("counter", "jellqupas_bytes_received", counts.received);
    put_one("counter", "jellqupas_bytes_sent", counts.sent);
    put_one("counter", "jellqupas_packets_received", counts.requests);
    put_one("counter", "jellqupas_packets_sent", counts.chunks);
    put_one("counter", "jellqupas_ticks", counts.ticks);
    put_one("counter", "jellqupas_batches", counts.batches);
    put_one("counter", "jellqupas_batch_milliseconds", counts.batch_us / 1000);
    put_one("gauge", "jellqupas_longest_batch_milliseconds", counts.longest_us / 1000);
    put_one("gauge", "jellqupas_unfinished_bytes", unfinished);
    put_one("gauge", "jellqupas_unread_bytes", unread());
    put_one("gauge", "jellqupas_limit_connections", places);
    put_one("gauge", "jellqupas_limit_watches", (uint64_t)limits->watches);
    put_one("gauge", "jellqupas_limit_watches_each", (uint64_t)limits->each);
    put_one("gauge", "jellqupas_limit_nodes", (uint64_t)limits->nodes);
    put_one("gauge", "jellqupas_limit_sessions", (uint64_t)limits->sessions);
    for (int i = 0; i < KINDS; i++) {
        char name[64];
        snprintf(name, sizeof name, "jellqupas_%s", kinds[i]);
        put_one("counter", name, counts.noted[i]);
    }
    uint64_t bytes = journal_bytes();
    if (bytes) put_one("gauge", "jellqupas_journal_bytes", bytes);
}

/* The numbers of the answer to `mntr` by ZooKeeper's names, a line each: name, tab, and value. */
static void put_told(char *told) {
    char *rest = told;
    for (char *line; (line = strsep(&rest, "\n"));) {
        char *value = strchr(line, '\t'), *end;
        if (!value || strncmp(line, "zk_", 3)) continue;
        *value++ = 0;
        double found = strtod(value, &end);
        if (end == value || *end) continue;
        if (!strcmp(line, "zk_num_alive_connections")) put_one("gauge", line, (uint64_t)found - 1);
        else put("# TYPE %s gauge\n%s %s\n", line, line, value);
    }
}

static void end_reader(struct reader *it) {
    if (it->front > 0) close(it->front);
    close(it->socket);
    *it = (struct reader){0};
}

/* Answers, and ends. What doesn't fit into the socket's room is lost: some thousand bytes do. */
static void answer(struct reader *it, const char *status) {
    char head[160];
    if (!length) put("%s\n", status);
    int count = snprintf(
        head, sizeof head,
        "HTTP/1.1 %s\r\nContent-Type: text/plain; version=0.0.4\r\nContent-Length: %zu\r\n"
        "Connection: close\r\n\r\n", status, length);
    if (send(it->socket, head, (size_t)count, MSG_NOSIGNAL | MSG_MORE) == count) {
        send(it->socket, text, length, MSG_NOSIGNAL);
    }
    length = 0;
    shutdown(it->socket, SHUT_WR);
    end_reader(it);
}

/* Asks the front for its counts. Without a free connection the host's alone are told. */
static void ask(struct reader *it, uint32_t number) {
    int ends[2];
    struct epoll_event event = {.events = EPOLLIN, .data.u32 = METRICS + 1 + READERS + number};
    if (socketpair(AF_UNIX, SOCK_STREAM | SOCK_NONBLOCK | SOCK_CLOEXEC, 0, ends)) ends[0] = -1;
    if (ends[0] < 0 || !is_opened(ends[0])) {
        if (ends[0] >= 0) close(ends[0]), close(ends[1]);
        put_counts();
        answer(it, "200 OK");
        return;
    }
    it->front = ends[1];
    if (epoll_ctl(events, EPOLL_CTL_ADD, it->front, &event) || send(it->front, "mntr", 4, 0) != 4) {
        end_reader(it);
    }
}

/* Reads the request, and asks the front once its head is whole. */
static void read_request(struct reader *it, uint32_t number) {
    size_t room = sizeof it->asked - 1 - it->asked_count;
    ssize_t came = room ? recv(it->socket, it->asked + it->asked_count, room, 0) : 0;
    if (came < 0 && (errno == EAGAIN || errno == EINTR)) return;
    if (came <= 0) {
        end_reader(it);
        return;
    }
    it->asked_count += (size_t)came, it->asked[it->asked_count] = 0;
    if (it->front || !strstr(it->asked, "\r\n\r\n")) return;
    if (strncmp(it->asked, "GET /metrics ", 13)) answer(it, "404 Not Found");
    else ask(it, number);
}

/* Takes the front's reply, up to its end. */
static void read_told(struct reader *it) {
    size_t room = sizeof it->told - 1 - it->told_count;
    ssize_t came = room ? recv(it->front, it->told + it->told_count, room, 0) : 0;
    if (came < 0 && (errno == EAGAIN || errno == EINTR)) return;
    if (came > 0) {
        it->told_count += (size_t)came;
        return;
    }
    it->told[it->told_count] = 0;
    put_told(it->told);
    put_counts();
    answer(it, "200 OK");
}

static void accept_reader(void) {
    int socket = accept4(listener, NULL, NULL, SOCK_NONBLOCK | SOCK_CLOEXEC);
    uint32_t number = 0;
    if (socket < 0) return;
    while (number < READERS && readers[number].until) number++;
    struct epoll_event event = {.events = EPOLLIN, .data.u32 = METRICS + 1 + number};
    if (number == READERS || epoll_ctl(events, EPOLL_CTL_ADD, socket, &event)) {
        close(socket);
        return;
    }
    readers[number] = (struct reader){.socket = socket, .until = now() + PATIENCE};
}

bool is_of_metrics(uint32_t number) {
    if (number < METRICS) return false;
    number -= METRICS;
    struct reader *it = number ? &readers[(number - 1) % READERS] : NULL;
    if (!it) accept_reader();
    else if (it->until && number <= READERS) read_request(it, number - 1);
    else if (it->until && it->front) read_told(it);
    return true;
}

void metrics_look(void) {
    for (int i = 0; i < READERS; i++) {
        if (readers[i].until && now() >= readers[i].until) end_reader(&readers[i]);
    }
}

void metrics_open(const struct words *words) {
    const char *address = words->metrics;
    unsigned port;
    struct epoll_event event = {.events = EPOLLIN, .data.u32 = METRICS};
    listener = listening_at(address, &port);
    limits = words;
    if (epoll_ctl(events, EPOLL_CTL_ADD, listener, &event)) {
        stop(3, "nothing can be waited for: %s", strerror(errno));
    }
    int host = (int)(strrchr(address, ':') - address);
    fprintf(stderr, "zk: metrics at http://%.*s:%u/metrics\n", host, address, port);
}
