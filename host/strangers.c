/* Connections that were refused, by their addresses: a line for each, and their answers come late.

   The first refusal of an address in a minute is sent a second late, and each further one a second
   later than the one before, up to MOST_LATE. So who tries passwords needs many connections, and
   is seen. A right login is never late. */
#define _GNU_SOURCE
#include <arpa/inet.h>
#include <stdio.h>
#include <string.h>
#include <sys/socket.h>
#include "notes.h"
#include "start.h"
#include "strangers.h"

enum {
    /* The addresses that are remembered, and for how long without a line. */
    KNOWN = 256,
    QUIET_FOR = 60000,
    /* The milliseconds between two refusals of one address. */
    LATE = 1000,
    MOST_LATE = 8000
};

/* An address without its port; when a line named it, and what came since. */
struct stranger {
    char name[INET6_ADDRSTRLEN];
    uint64_t said_at;
    unsigned long left_out;
    uint64_t late;
};
static struct stranger strangers[KNOWN];

/* The address of the other end. */
static void name_of(int socket, char *to, size_t room) {
    union address from;
    socklen_t size = sizeof from;
    snprintf(to, room, "somewhere");
    if (getpeername(socket, &from.any, &size)) return;
    bool is_six = from.any.sa_family == AF_INET6;
    inet_ntop(from.any.sa_family, is_six ? (void *)&from.six.sin6_addr : &from.four.sin_addr, to,
        (socklen_t)room);
}

/* The stranger with this name. A new one takes the place of the one named longest ago. */
static struct stranger *known(const char *name) {
    struct stranger *oldest = strangers;
    for (struct stranger *it = strangers; it < strangers + KNOWN; it++) {
        if (!strcmp(it->name, name)) return it;
        if (it->said_at < oldest->said_at) oldest = it;
    }
    *oldest = (struct stranger){.said_at = 0};
    strcpy(oldest->name, name);
    return oldest;
}

/* What an answer refuses: its last byte is the lowest one of the code. */
static const char *why(const uint8_t *answer, size_t count) {
    return answer[count - 1] == (uint8_t)-115 ? "it gave a wrong login" : "it gave no login";
}

uint64_t refused_at(int socket, const uint8_t *answer, size_t count) {
    char name[INET6_ADDRSTRLEN];
    uint64_t at = now();
    name_of(socket, name, sizeof name);
    counts.strangers++;
    struct stranger *it = known(name);
    bool is_said = !it->said_at || at - it->said_at >= QUIET_FOR;
    it->late = is_said ? LATE : it->late < MOST_LATE ? it->late + LATE : MOST_LATE;
    if (!is_said) {
        it->left_out++;
        return at + it->late;
    }
    fprintf(stderr, "zk: refused a connection of %s: %s", name, why(answer, count));
    if (it->left_out) fprintf(stderr, " (and %lu since the last such line)", it->left_out);
    fputc('\n', stderr);
    it->said_at = at, it->left_out = 0;
    return at + it->late;
}
