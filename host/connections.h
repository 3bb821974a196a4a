/* The connections of the host: what is sent on them, and how they end. A connection's number is
   its index in `all`. */
#ifndef CONNECTIONS_H
#define CONNECTIONS_H

#include <stdbool.h>
#include <stddef.h>
#include <stdint.h>

enum {
    /* The bytes at a connection's beginning that tell a word of four letters from a request. */
    FIRST = 4,
    /* A connection that is to be sent more than this isn't read. */
    OWED = 1 << 20,
    /* The milliseconds for a greeting, and for sending the rest before a connection's end. */
    PATIENCE = 10000
};

enum state {
    FREE,
    OPEN,
    /* It has its last chunk: input is dropped, and it is closed once all is sent. */
    LAST,
    /* It is closed, and the front isn't notified yet. */
    GONE
};

/* What monitors are told of a connection: since when it is there, in milliseconds of the era; the
   requests and chunks; its session and the session's timeout in milliseconds, or 0; and the xid and
   the zxid of its last answer. */
struct seen {
    uint64_t since, requests, chunks, session, zxid;
    uint32_t timeout, xid;
};

struct connection {
    enum state state;
    int socket;
    /* What is to be sent: `out` up to `count`, of which `sent` bytes are. */
    uint8_t *out;
    size_t sent, count, room;
    /* Of its unfinished request: the bytes passed on, those still to come, and the first `heads`
       bytes of its length. */
    size_t part;
    uint32_t body, head;
    int heads;
    /* Its first bytes, of which so many came. */
    uint8_t first[FIRST];
    size_t firsts;
    /* The word of a monitor's connection (monitors.h), or 0. */
    int word;
    struct seen seen;
    /* When it is closed, in milliseconds; 0 for never. Before `late` nothing is sent on it. */
    uint64_t until, late;
    /* The events that it waits for. */
    uint32_t events;
    bool is_touched;
};

/* The connections that are served at once: `all` has a place for each, from 1 on. */
extern uint32_t places;
extern struct connection *all;
/* The descriptor of epoll. */
extern int events;
/* The bytes of unfinished requests, of all connections together. */
extern size_t unfinished;
/* The requests passed on since the last commit. */
extern size_t asked;

/* Makes this many places, all of them free. */
void make_places(uint32_t count);

/* Whether it isn't closed. */
bool is_there(const struct connection *it);

/* How many bytes are to be sent. */
size_t owed(const struct connection *it);

/* How many bytes are to be sent, on all connections together. */
size_t unread(void);

/* Serves a socket as a connection, if one is free and the socket can be waited for. */
bool is_opened(int socket);

/* Closes a connection at once. The front is notified later: its chunks may be half taken. */
void shut(uint32_t number);

/* Closes those with the longest unfinished requests, if too much is unfinished. */
void bound_unfinished(void);

/* Commits, and takes the chunks of the front. */
void take(void);

/* Sends what can be sent on a connection. */
void send_on(uint32_t number);

/* Notifies the front which connections are closed. All chunks are taken. */
void end_gone(void);

/* Sends the chunks, and notifies the front which connections are closed. */
void finish(void);

#endif
