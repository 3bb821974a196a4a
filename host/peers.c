/* Links to the other servers. Each is one connection, which this node dials.

   Every live server of the log has one, so that its end is noticed, whether or not there is
   something to send. A connection that can't be made is tried again, for a while: nothing is lost.
   One that broke may have lost something. So the links to and from its server aren't used again,
   and the server is reported to the child as lost, again and again until it is gone. */
#define _GNU_SOURCE
#include <errno.h>
#include <netinet/tcp.h>
#include <stdio.h>
#include <stdlib.h>
#include <string.h>
#include <sys/random.h>
#include <sys/socket.h>
#include <unistd.h>
#include "node.h"
#include "start.h"

/* The milliseconds between two attempts, and the greatest number of nodes. */
enum { PAUSE = 50, MOST_NODES = 64 };

enum state { NONE, PAUSES, DIALS, IS_OPEN, BROKEN };

struct peer {
    enum state state;
    bool is_gone;
    int socket;
    size_t place;
    const struct place *at;
    /* The rest of the hello, and what waits. */
    struct bytes hello, out;
    /* When it is dialled or reported again, and since when it doesn't answer. */
    uint64_t again, since;
};

/* The nodes, and their addresses. */
static struct place {
    const char *name;
    union address address;
    socklen_t size;
} places[MOST_NODES];
static size_t place_count;
static struct peer peers[SERVERS + 1];

static struct place *place_of(const char *name) {
    for (size_t i = 0; i < place_count; i++) {
        if (!strcmp(places[i].name, name)) return &places[i];
    }
    return NULL;
}

bool peers_has(const char *name) { return place_of(name) != NULL; }

bool peers_node(const char *name, const char *address) {
    struct place *it = &places[place_count];
    if (place_count == MOST_NODES || !*name || peers_has(name)) return false;
    it->name = name, it->size = read_address(address, &it->address);
    if (strlen(name) >= NODE_NAME || !it->size) return false;
    place_count++;
    return true;
}

void peers_named(uint8_t server, const char *name) {
    struct peer *it = &peers[server];
    if (it->at) stop(1, "the log's helper named server %u twice", server);
    it->at = place_of(name);
    it->state = PAUSES;
}

/* Closes a link. What waits is dropped. */
static void shut(struct peer *it, enum state state) {
    if (it->state == DIALS || it->state == IS_OPEN) close(it->socket);
    bytes_clear(&it->hello);
    bytes_clear(&it->out);
    it->state = state;
}

void peers_gone(uint8_t server) {
    peers[server].is_gone = true;
    shut(&peers[server], NONE);
    guests_shut(server);
}

bool peers_is_named(uint8_t server) { return peers[server].at != NULL; }

bool peers_is_lost(uint8_t server) {
    return peers[server].is_gone || peers[server].state == BROKEN;
}

void peers_broke(uint8_t server) {
    struct peer *it = &peers[server];
    if (it->is_gone || it->state == BROKEN) return;
    const char *fault = it->state == DIALS || it->state == PAUSES ? "can't be reached" : "is lost";
    say("server %u on node %s %s", server, it->at->name, fault);
    shut(it, BROKEN);
    guests_shut(server);
    it->again = now() + node.suspect;
    seat_lost(server);
}

/* ---- dialling */

/* What this node says first. Its nonce is that of this process. */
static void put_hello(struct bytes *to, uint8_t server) {
    static uint8_t nonce[8];
    static bool is_drawn;
    if (!is_drawn && getrandom(nonce, sizeof nonce, 0) != sizeof nonce) {
        stop(3, "no random bytes: %s", strerror(errno));
    }
    is_drawn = true;
    const uint8_t processes[] = {SERVER, node.own, SERVER, server};
    bytes_put(to, "jlqn0001", 8);
    bytes_put_number(to, strlen(node.cluster), 4);
    bytes_put(to, node.cluster, strlen(node.cluster));
    bytes_put(to, processes, sizeof processes);
    bytes_put(to, nonce, sizeof nonce);
}

/* Tries again after a pause, or reports the server as lost. */
static void fail(struct peer *it) {
    uint64_t at = now();
    if (at - it->since >= node.suspect) {
        peers_broke((uint8_t)(it - peers));
        return;
    }
    close(it->socket);
    it->state = PAUSES, it->again = at + PAUSE;
}

static void dial(struct peer *it) {
    int on = 1;
    if (!it->since) it->since = now();
    it->socket = socket(it->at->address.any.sa_family,
        SOCK_STREAM | SOCK_NONBLOCK | SOCK_CLOEXEC, 0);
    if (it->socket < 0) stop(3, "no socket: %s", strerror(errno));
    setsockopt(it->socket, IPPROTO_TCP, TCP_NODELAY, &on, sizeof on);
    it->state = DIALS;
    int failed = connect(it->socket, &it->at->address.any, it->at->size);
    if (failed && errno != EINPROGRESS) fail(it);
}

/* Whether a connection has both its ends here: a port that is free can be dialled from itself. */
static bool is_own(int socket) {
    union address here, there;
    socklen_t size = sizeof here, other = sizeof there;
    memset(&here, 0, sizeof here), memset(&there, 0, sizeof there);
    return getsockname(socket, &here.any, &size) || getpeername(socket, &there.any, &other) ||
        (size == other && !memcmp(&here, &there, size));
}

/* The connection is made, or not. */
static void end_dialling(struct peer *it) {
    int fault = 0;
    socklen_t size = sizeof fault;
    getsockopt(it->socket, SOL_SOCKET, SO_ERROR, &fault, &size);
    if (fault || is_own(it->socket)) {
        fail(it);
        return;
    }
    it->state = IS_OPEN, it->since = 0;
    put_hello(&it->hello, (uint8_t)(it - peers));
}

/* ---- sending */

void peers_send(uint8_t server, uint8_t tag, const uint8_t *bytes, size_t count) {
    struct peer *it = &peers[server];
    if (!it->at || server == node.own) {
        stop(1, "zk_node sent a record to server %u, which isn't in the log", server);
    }
    if (it->state == NONE || it->state == BROKEN) return;
    bytes_put_number(&it->out, tag, 1);
    bytes_put_number(&it->out, count, 4);
    bytes_put(&it->out, bytes, count);
}

bool peers_are_slow(void) {
    for (size_t i = 1; i <= SERVERS; i++) {
        if (bytes_left(&peers[i].out) > HIGH) return true;
    }
    return false;
}

static bool is_sent(struct peer *it) {
    if (!bytes_write(it->socket, &it->hello)) return false;
    return bytes_left(&it->hello) || bytes_write(it->socket, &it->out);
}

/* Waits for a link, or dials it. It dials no one before it has a number and has read the log. */
static void wait_on(struct peer *it) {
    if (it->state == PAUSES && node.own && node.is_caught_up && it->again <= now()) dial(it);
    bool has_more = it->state == DIALS || bytes_left(&it->hello) || bytes_left(&it->out);
    if (it->state == DIALS || it->state == IS_OPEN) {
        it->place = wait_for(it->socket, (short)(POLLIN | POLLRDHUP | (has_more ? POLLOUT : 0)));
    }
    if (it->state == PAUSES && node.own && node.is_caught_up) wait_until(it->again);
    if (it->state == BROKEN) wait_until(it->again);
    if (it->state == DIALS) wait_until(it->since + node.suspect);
}

void peers_wait(void) {
    for (size_t i = 1; i <= SERVERS; i++) {
        peers[i].place = MOST_WAITS;
        if (i != node.own) wait_on(&peers[i]);
    }
}

static void pass(struct peer *it) {
    short came = it->place < MOST_WAITS ? came_of(it->place) : 0;
    uint8_t server = (uint8_t)(it - peers);
    if (it->state == BROKEN && it->again <= now()) {
        it->again = now() + node.suspect;
        seat_lost(server);
    }
    if (it->state == DIALS && came) end_dialling(it);
    else if (it->state == DIALS && now() >= it->since + node.suspect) fail(it);
    /* (nothing is ever received on it) */
    if (it->state != IS_OPEN) return;
    if ((came & ~POLLOUT) || !is_sent(it)) peers_broke(server);
}

void peers_pass(void) {
    for (size_t i = 1; i <= SERVERS; i++) {
        if (i != node.own) pass(&peers[i]);
    }
}
