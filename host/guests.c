/* Connections to this node: links from servers, and clients.

   Each begins with a hello: the magic and the version, the cluster's name with its length, the
   sender and the receiver, and a nonce of the sender. Then it has records: a tag, a length and so
   many bytes. What isn't so is refused by a line on standard error, and the connection is closed.
   A hello that comes before this node has read in the log which server is here, or where its
   sender is, waits for that. */
#define _GNU_SOURCE
#include <arpa/inet.h>
#include <errno.h>
#include <netinet/tcp.h>
#include <stdio.h>
#include <stdlib.h>
#include <string.h>
#include <sys/socket.h>
#include <unistd.h>
#include "node.h"
#include "start.h"

enum {
    /* The connections at once. */
    MOST = 200,
    /* The milliseconds for a hello. */
    PATIENCE = 10000,
    /* A client that doesn't read is closed if it is owed more than this. */
    MOST_OWED = 64 << 20,
    /* The bytes of a hello before the cluster's name, and after it. */
    MAGIC = 8, BEFORE = 12, AFTER = 12
};

enum state { FREE, GREETS, EXPECTS, IS_OPEN };

static struct guest {
    enum state state;
    int socket;
    size_t place;
    struct process sender;
    struct bytes in, out;
    /* When it is closed, in milliseconds; 0 for never. */
    uint64_t until;
    char address[64];
} guests[MOST];

static int listener;
static size_t listener_place;
/* The nonce of each server that was heard, and whether it was. */
static uint8_t nonces[SERVERS + 1][8];
static bool is_known[SERVERS + 1];

void guests_listen(const char *address) {
    unsigned port;
    listener = listening_at(address, &port);
    say("node %s listens on %.*s:%u", node.self, (int)(strrchr(address, ':') - address), address,
        port);
}

/* ---- ends */

static void clear(struct guest *it) {
    close(it->socket);
    bytes_clear(&it->in);
    bytes_clear(&it->out);
    it->state = FREE;
}

/* Closes a connection. The child drops what was loaded of its sender. */
static void shut(struct guest *it) {
    bool was_open = it->state == IS_OPEN;
    clear(it);
    if (was_open) seat_ended(it->sender);
}

/* Its sender, or the way to it, has ended. */
static void end(struct guest *it) {
    bool is_link = it->state == IS_OPEN && it->sender.kind == SERVER;
    shut(it);
    if (is_link) peers_broke(it->sender.number);
}

static void refuse(struct guest *it, const char *why) {
    say("closed the connection of %s: %s", it->address, why);
    end(it);
}

void guests_shut(uint8_t server) {
    for (struct guest *it = guests; it < guests + MOST; it++) {
        if (it->state == IS_OPEN && it->sender.kind == SERVER && it->sender.number == server) {
            shut(it);
        }
    }
}

/* ---- hellos */

static struct guest *guest_of(struct process sender) {
    for (struct guest *it = guests; it < guests + MOST; it++) {
        if (it->state == IS_OPEN && it->sender.kind == sender.kind &&
            it->sender.number == sender.number) return it;
    }
    return NULL;
}

static bool is_process(const uint8_t *it) {
    if (it[0] == SERVER) return it[1] >= 1 && it[1] <= SERVERS;
    return it[0] == CLIENT && it[1] < CLIENTS;
}

/* What follows the cluster's name in a hello: why it is refused, or NULL. */
static const char *fault_of_processes(const uint8_t *it) {
    if (!is_process(it)) return "its sender is no server or client";
    if (it[2] != SERVER || !is_process(it + 2)) return "its receiver is no server";
    if (node.own && it[3] != node.own) return "it is for another server";
    if (it[0] == CLIENT) return NULL;
    if (it[1] == node.own) return "its sender has this server's number";
    if (peers_is_lost(it[1])) return "its sender is lost";
    bool is_other = is_known[it[1]] && memcmp(nonces[it[1]], it + 4, 8);
    return is_other ? "another process has its sender's number" : NULL;
}

/* Whether the log has both ends of a connection. Clients aren't in it. */
static bool is_expected(const uint8_t *it) {
    return node.own && (it[0] == CLIENT || peers_is_named(it[1]));
}

/* Opens a connection by its hello, of which this is what follows the cluster's name. The former
   connection of its sender ends first. */
static void welcome(struct guest *it, const uint8_t *processes) {
    struct process sender = {processes[0], processes[1]};
    struct guest *former = guest_of(sender);
    if (former) shut(former);
    if (sender.kind == SERVER) {
        is_known[sender.number] = true;
        memcpy(nonces[sender.number], processes + 4, 8);
    }
    it->sender = sender, it->state = IS_OPEN, it->until = 0;
    bytes_take(&it->in, BEFORE + strlen(node.cluster) + AFTER);
}

/* Why a hello is refused by what comes before its processes, as far as it came, or NULL. */
static const char *fault_of_hello(const uint8_t *hello, size_t count) {
    size_t name = strlen(node.cluster);
    if (count && memcmp(hello, "jlqn", count < 4 ? count : 4)) return "it isn't one of a node";
    if (count >= MAGIC && memcmp(hello + 4, "0001", 4)) return "it has another version";
    if (count >= BEFORE && number_at(hello + MAGIC, 4) != name) return "its cluster is another";
    bool has_name = count >= BEFORE + name;
    if (has_name && memcmp(hello + BEFORE, node.cluster, name)) return "its cluster is another";
    return NULL;
}

/* Looks at a hello, as far as it came. */
static void greet(struct guest *it) {
    const uint8_t *hello = bytes_first(&it->in);
    size_t count = bytes_left(&it->in), name = strlen(node.cluster);
    const char *fault = fault_of_hello(hello, count);
    if (!fault && count >= BEFORE + name + AFTER) {
        fault = fault_of_processes(hello + BEFORE + name);
        if (!fault && is_expected(hello + BEFORE + name)) welcome(it, hello + BEFORE + name);
        else if (!fault && it->state == GREETS) {
            it->state = EXPECTS, it->until = now() + node.suspect;
        }
    }
    if (fault) refuse(it, fault);
}

/* ---- records */

/* Why a record isn't passed on, by its tag and its length, or NULL. Clients send frames alone. */
static const char *fault_of(const struct guest *it, uint8_t tag, size_t length) {
    if (tag > (it->sender.kind == CLIENT ? 0 : 2)) return "it sent a record of no kind";
    return length > MOST_RECORD ? "it sent too long a record" : NULL;
}

/* Whether a frame isn't from this sender, or not to this server. It begins with both. */
static bool is_misled(const struct guest *it, const uint8_t *frame, size_t length) {
    const uint8_t processes[] = {it->sender.kind, it->sender.number, SERVER, node.own};
    return length < sizeof processes || memcmp(frame, processes, sizeof processes);
}

/* Passes on the records that came whole. */
static void pass_on(struct guest *it) {
    while (it->state == IS_OPEN && bytes_left(&it->in) >= 5) {
        const uint8_t *record = bytes_first(&it->in);
        size_t length = number_at(record + 1, 4);
        const char *fault = fault_of(it, record[0], length);
        if (!fault && bytes_left(&it->in) < 5 + length) return;
        if (!fault && !record[0] && is_misled(it, record + 5, length)) {
            fault = "it sent a frame of another sender or receiver";
        }
        if (fault) {
            refuse(it, fault);
            return;
        }
        seat_link(it->sender, record[0], record + 5, length);
        bytes_take(&it->in, 5 + length);
    }
}

void guests_send(uint8_t client, uint8_t tag, const uint8_t *bytes, size_t count) {
    struct guest *it = guest_of((struct process){CLIENT, client});
    if (!it) return;
    bytes_put_number(&it->out, tag, 1);
    bytes_put_number(&it->out, count, 4);
    bytes_put(&it->out, bytes, count);
    if (bytes_left(&it->out) > MOST_OWED) refuse(it, "it doesn't read");
}

/* ---- passes */

/* Accepts a connection, and closes it at once if there are too many. */
static bool is_accepted(void) {
    int on = 1;
    union address from;
    socklen_t size = sizeof from;
    char text[INET6_ADDRSTRLEN] = "";
    int socket = accept4(listener, &from.any, &size, SOCK_NONBLOCK | SOCK_CLOEXEC);
    if (socket < 0) return false;
    struct guest *it = guests;
    while (it < guests + MOST && it->state != FREE) it++;
    if (it == guests + MOST) return close(socket), true;
    bool is_six = from.any.sa_family == AF_INET6;
    inet_ntop(from.any.sa_family, is_six ? (void *)&from.six.sin6_addr : &from.four.sin_addr, text,
        sizeof text);
    setsockopt(socket, IPPROTO_TCP, TCP_NODELAY, &on, sizeof on);
    *it = (struct guest){
        .state = GREETS, .socket = socket, .until = now() + PATIENCE, .place = MOST_WAITS};
    snprintf(it->address, sizeof it->address, "%s:%u", text, ntohs(from.four.sin_port));
    return true;
}

/* Whether a connection is read now. A server always is: else two nodes could wait for each
   other. */
static bool is_read(const struct guest *it, bool is_slow) {
    if (it->state == EXPECTS) return false;
    if (it->state != IS_OPEN || it->sender.kind == SERVER) return true;
    return !is_slow && bytes_left(&it->out) <= HIGH;
}

void guests_wait(void) {
    bool is_slow = peers_are_slow() || seat_owed() > HIGH;
    listener_place = wait_for(listener, POLLIN);
    for (struct guest *it = guests; it < guests + MOST; it++) {
        it->place = MOST_WAITS;
        if (it->state == FREE) continue;
        short events = (short)((is_read(it, is_slow) ? POLLIN : 0) |
            (bytes_left(&it->out) ? POLLOUT : 0));
        it->place = wait_for(it->socket, events);
        if (it->until) wait_until(it->until);
    }
}

/* Handles what came of a connection. */
static void pass(struct guest *it) {
    short came = it->place < MOST_WAITS ? came_of(it->place) : 0;
    bool is_open = !(came & ~POLLOUT) || bytes_read(it->socket, &it->in);
    const char *late = it->state == GREETS ? "it has no hello" : "the log hasn't its ends";
    if (it->state == GREETS || it->state == EXPECTS) greet(it);
    if (it->state == IS_OPEN) pass_on(it);
    if (it->state == IS_OPEN && !bytes_write(it->socket, &it->out)) is_open = false;
    if (it->state == FREE) return;
    if (!is_open) end(it);
    else if (it->until && now() >= it->until) refuse(it, late);
}

void guests_pass(void) {
    for (struct guest *it = guests; it < guests + MOST; it++) {
        if (it->state != FREE) pass(it);
    }
    for (int most = 64; came_of(listener_place) && most && is_accepted(); most--) continue;
}
