/* The host of a node (node.h): sockets, a clock, and two children, zk_node and the log's helper.

   One thread does everything: it waits for descriptors, and handles what came of each once. What
   came is given to the child, and then a turn, unless it still answers one. */
#define _GNU_SOURCE
#include <errno.h>
#include <stdarg.h>
#include <stdio.h>
#include <stdlib.h>
#include <string.h>
#include <unistd.h>
#include "node.h"
#include "start.h"

struct node node = {.suspect = 2000};

/* ---- what is waited for */

static struct pollfd waits[MOST_WAITS];
static size_t wait_count;
static uint64_t deadline;

size_t wait_for(int descriptor, short events) {
    if (wait_count == MOST_WAITS) stop(1, "too many descriptors");
    waits[wait_count] = (struct pollfd){.fd = descriptor, .events = events};
    return wait_count++;
}

short came_of(size_t place) { return waits[place].revents; }

void wait_until(uint64_t at) {
    if (at < deadline) deadline = at;
}

void say(const char *format, ...) {
    char line[512] = "zk: ";
    va_list words;
    va_start(words, format);
    int length = vsnprintf(line + 4, sizeof line - 5, format, words);
    va_end(words);
    size_t count = length < (int)sizeof line - 5 ? (size_t)length + 4 : sizeof line - 2;
    line[count++] = '\n';
    if (write(STDERR_FILENO, line, count) < 0) return;
}

/* Waits for what may happen next. Returns whether no signal ends this process. */
static bool waits_on(int signals) {
    wait_count = 0, deadline = UINT64_MAX;
    wait_for(signals, POLLIN);
    log_wait(), seat_wait(), peers_wait(), guests_wait();
    uint64_t at = now();
    int most = deadline == UINT64_MAX ? -1 : deadline <= at ? 0 : (int)(deadline - at);
    if (poll(waits, wait_count, most) < 0) {
        if (errno != EINTR) stop(3, "nothing can be waited for: %s", strerror(errno));
        for (size_t i = 0; i < wait_count; i++) waits[i].revents = 0;
    }
    return !waits[0].revents;
}

/* ---- words */

/* Reads NODE=ADDRESS:PORT. Returns the address. */
static const char *add_node(char *word) {
    char *address = strchr(word, '=');
    if (address) *address++ = 0;
    if (!address || !peers_node(word, address)) stop(2, "--node isn't '%s'", word);
    return address;
}

/* Reads the words: `--name CLUSTER --self NODE --suspect MS --program PROGRAM`, `--node` for each
   node, and after `--` the words that start the helper. Returns the address of this node. */
static const char *understand(char **words) {
    const char *own = NULL;
    for (; *words && strcmp(*words, "--"); words += 2) {
        const char *word = words[0];
        char *value = words[1];
        if (!value) stop(2, "%s has no value", word);
        if (!strcmp(word, "--name")) node.cluster = value;
        else if (!strcmp(word, "--self")) node.self = value;
        else if (!strcmp(word, "--program")) node.program = value;
        else if (!strcmp(word, "--suspect")) {
            long found = number_in(value, 100, 3600000);
            if (found < 0) stop(2, "--suspect isn't '%s'", value);
            node.suspect = (uint64_t)found;
        } else if (!strcmp(word, "--node")) {
            const char *address = add_node(value);
            if (node.self && !strcmp(value, node.self)) own = address;
        } else stop(2, "there is no word '%s'", word);
    }
    node.helper = *words ? words + 1 : words;
    if (!node.cluster || !node.program || !own || !*node.helper) stop(2, "a word is missing");
    if (strlen(node.cluster) >= CLUSTER_NAME) stop(2, "--name is too long");
    return own;
}

int main(int count, char **given) {
    const char *address = understand(given + (count > 0));
    make_ready(MOST_WAITS + 32);
    int signals = ending_signals();
    guests_listen(address);
    seat_start(log_start(signals));
    while (waits_on(signals)) {
        log_pass(), seat_pass(), peers_pass(), guests_pass();
        seat_send();
    }
    log_close();
    seat_close();
    return 0;
}
