/* The child of a node: the records that it receives, and those that it sends. */
#define _GNU_SOURCE
#include <errno.h>
#include <fcntl.h>
#include <stdio.h>
#include <stdlib.h>
#include <string.h>
#include "node.h"
#include "start.h"

/* The tags of records to the child, and of records from it. */
enum { ENTRY, CAUGHT_UP, LINK, LOST, TURN, ENDED };
enum { SEND, APPEND, STATUS, END };
/* The flags of a status that are printed. */
enum { HAS_STATE = 2, IS_GONE = 4 };

static struct child child = {.name = "zk_node"};
static struct bytes inputs, outputs;
/* Whether it answers a turn; whether inputs came after that; whether more waits in it. */
static bool is_at_work, has_inputs, has_more;
static size_t place;

void seat_start(bool opens) {
    char *words[] = {(char *)node.program, (char *)node.self, opens ? "--opens" : NULL, NULL};
    child_start(&child, words);
    fcntl(child.to, F_SETFL, O_NONBLOCK);
    fcntl(child.from, F_SETFL, O_NONBLOCK);
}

/* ---- inputs */

static void put_tag(uint8_t tag) {
    bytes_put_number(&inputs, tag, 1);
    has_inputs = true;
}

static void put_sized(const uint8_t *bytes, size_t count) {
    bytes_put_number(&inputs, count, 4);
    bytes_put(&inputs, bytes, count);
}

static void put_process(struct process it) {
    bytes_put_number(&inputs, it.kind, 1);
    bytes_put_number(&inputs, it.number, 1);
}

void seat_entry(uint64_t index, const uint8_t *bytes, size_t count) {
    put_tag(ENTRY);
    bytes_put_number(&inputs, index, 8);
    put_sized(bytes, count);
}

void seat_caught_up(void) { put_tag(CAUGHT_UP); }

void seat_link(struct process sender, uint8_t tag, const uint8_t *bytes, size_t count) {
    put_tag(LINK);
    put_process(sender);
    bytes_put_number(&inputs, tag, 1);
    put_sized(bytes, count);
}

void seat_lost(uint8_t server) {
    put_tag(LOST);
    bytes_put_number(&inputs, server, 1);
}

void seat_ended(struct process sender) {
    put_tag(ENDED);
    put_process(sender);
}

size_t seat_owed(void) { return bytes_left(&inputs); }

/* ---- outputs */

/* Prints what became of the server. */
static void take_status(uint8_t own, uint8_t flags) {
    if (own > SERVERS) stop(1, "zk_node sent a status of server %u", own);
    node.own = own;
    const char *state = flags & IS_GONE ? "is gone"
        : flags & HAS_STATE ? "is a member" : "waits for the state";
    if (own) say("server %u on node %s %s", own, node.self, state);
}

/* A record from the child: its tag and fields, as far as they came. Returns its length, or 0. */
static size_t length_of(const uint8_t *it, size_t count) {
    static const uint8_t FIXED[] = {[SEND] = 8, [APPEND] = 13, [STATUS] = 3, [END] = 2};
    if (!count) return 0;
    if (it[0] > END) stop(1, "zk_node sent a record with tag %u", it[0]);
    size_t length = FIXED[it[0]];
    if (count < length) return 0;
    if (it[0] == SEND || it[0] == APPEND) length += number_at(it + length - 4, 4);
    return count < length ? 0 : length;
}

static void take_send(const uint8_t *it, size_t length) {
    if (it[1] == SERVER && it[2] >= 1 && it[2] <= SERVERS) {
        peers_send(it[2], it[3], it + 8, length - 8);
    } else if (it[1] == CLIENT && it[2] < CLIENTS) {
        guests_send(it[2], it[3], it + 8, length - 8);
    } else {
        stop(1, "zk_node sent a record to no process: %u, %u", it[1], it[2]);
    }
}

static void take_record(const uint8_t *it, size_t length) {
    if (it[0] == SEND) take_send(it, length);
    if (it[0] == APPEND) log_append(number_at(it + 1, 8), it + 13, length - 13);
    if (it[0] == STATUS) take_status(it[1], it[2]);
    if (it[0] == END) is_at_work = false, has_more = it[1] != 0;
}

void seat_wait(void) {
    place = wait_for(child.from, POLLIN);
    wait_for(child.to, bytes_left(&inputs) ? POLLOUT : 0);
    if (!is_at_work && has_more && !peers_are_slow()) wait_until(0);
}

void seat_pass(void) {
    size_t length;
    /* (what it sent before its end counts) */
    bool is_open = !came_of(place) || bytes_read(child.from, &outputs);
    while ((length = length_of(bytes_first(&outputs), bytes_left(&outputs)))) {
        take_record(bytes_first(&outputs), length);
        bytes_take(&outputs, length);
    }
    if (!is_open) end_with(&child);
}

void seat_send(void) {
    if (!is_at_work && (has_inputs || (has_more && !peers_are_slow()))) {
        put_tag(TURN);
        is_at_work = true, has_inputs = has_more = false;
    }
    /* (what it sent before its end is still to be read) */
    if (!bytes_write(child.to, &inputs)) bytes_clear(&inputs);
}

void seat_close(void) { child_kill(&child); }
