/* The host of a node: what its files share.

   A node is a server of a chain, or is about to become one. The proved program zk_node is its
   child, behind two pipes: it has no sockets, no clock and no files. What it does with the records
   that it receives is proved of its code, for every sequence of records, as long as its caller
   obeys the following. Nothing can check that.

   - The log. Its entries are given to the child each once, in order, from the first on; and all
     nodes of the cluster are given the same. An entry that the child appends comes into the log at
     its index, or not at all.
   - Links. What is given to the child as coming from a process begins what that process's child
     sent to this server: each record whole, once, in order, nothing in between. So a link between
     two servers that broke is never used again.
   - Processes. One process acts under a server's number, and no number is used again. One client at
     a time acts under a client's number, and the numbers of its calls rise.
   - Failure. A server that was reported as gone does nothing more. (The child ends once it reads
     in the log that it is gone. Until then a tail that was wrongly reported may answer a query by
     an old state.)

   Whether a server is reported depends on this host's clock, and on connections alone. */
#ifndef NODE_H
#define NODE_H

#include <poll.h>
#include <stdbool.h>
#include <stddef.h>
#include <stdint.h>
#include "bytes.h"
#include "child.h"

enum {
    SERVERS = 16,
    CLIENTS = 32,
    /* The bytes of a node's name, with its end, and those of a cluster's name. */
    NODE_NAME = 33,
    CLUSTER_NAME = 64,
    /* The bytes of the longest record of a link, after its tag and length. */
    MOST_RECORD = 8 << 20,
    /* Clients aren't read while more than this waits for a server or for the child. */
    HIGH = 4 << 20,
    /* What is polled at once. */
    MOST_WAITS = 512
};

/* How zwire spells the kind of a process. A process is its kind and its number. */
enum { SERVER = 1, CLIENT = 2 };

struct process {
    uint8_t kind, number;
};

/* What this node is. */
struct node {
    const char *cluster, *self, *program;
    /* The words that start the log's helper. */
    char **helper;
    uint64_t suspect;
    /* The number of its server, 0 before it has one. */
    uint8_t own;
    /* Whether the log was read to its end once. */
    bool is_caught_up;
};

extern struct node node;

/* ---- what is waited for (node.c) */

/* Waits for these events of a descriptor in the next pass. Returns where `came_of` finds them. */
size_t wait_for(int descriptor, short events);

/* The events that came. */
short came_of(size_t place);

/* Waits no longer than until this time. */
void wait_until(uint64_t at);

/* Prints a line on standard error. */
void say(const char *format, ...);

/* ---- the child (seat.c) */

/* Starts the child, which may open an empty log or not. */
void seat_start(bool opens);

/* What the child receives. */
void seat_entry(uint64_t index, const uint8_t *bytes, size_t count);
void seat_caught_up(void);
void seat_link(struct process sender, uint8_t tag, const uint8_t *bytes, size_t count);
void seat_lost(uint8_t server);
void seat_ended(struct process sender);

void seat_wait(void);

/* Takes what the child sends. */
void seat_pass(void);

/* Ends the inputs by a turn, unless the child is at work, and sends what waits for it. */
void seat_send(void);

/* How many bytes wait for the child. */
size_t seat_owed(void);

/* Ends the child. */
void seat_close(void);

/* ---- the log's helper (log.c) */

/* Starts the helper, and waits for its first line, or until a signal comes. Returns whether this
   node opens the log. */
bool log_start(int signals);

/* Appends an entry if it is the next one. */
void log_append(uint64_t index, const uint8_t *bytes, size_t count);

void log_wait(void);
void log_pass(void);
void log_close(void);

/* ---- links to servers (peers.c) */

/* The address of a node. Returns whether it is one. */
bool peers_node(const char *name, const char *address);

/* Whether there is such a node. */
bool peers_has(const char *name);

/* The log names the node of a server; or says that it is gone. */
void peers_named(uint8_t server, const char *name);
void peers_gone(uint8_t server);

/* Whether the log has named it. */
bool peers_is_named(uint8_t server);

/* Whether it is gone, or a link to or from it broke. */
bool peers_is_lost(uint8_t server);

/* Sends a record. What the link to the server can't take is dropped. */
void peers_send(uint8_t server, uint8_t tag, const uint8_t *bytes, size_t count);

/* A link from this server ended: so the one to it does. */
void peers_broke(uint8_t server);

void peers_wait(void);
void peers_pass(void);

/* Whether more than HIGH bytes wait for a server. */
bool peers_are_slow(void);

/* ---- connections to this node (guests.c) */

/* Listens from now on. Prints the address with its port. */
void guests_listen(const char *address);

/* Sends a record to a client. It is dropped if the client has no connection. */
void guests_send(uint8_t client, uint8_t tag, const uint8_t *bytes, size_t count);

/* Closes the connection of a server that is gone or lost. */
void guests_shut(uint8_t server);

void guests_wait(void);
void guests_pass(void);

#endif
