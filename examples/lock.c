/* A lock that two clients take in turn, and a setting that only its holder can write.

       ./library
       cc -I out/library -o lock examples/lock.c out/library/libjellqupas.a && ./lock

   Each client makes an ephemeral sequential node below /lock, and the first in the queue holds the
   lock. The middle one of three servers crashes while the second client asks.

   A holder may have lost its session without knowing. So it writes in a multi that checks its own
   node: the name of a sequential node never comes twice, so it is a fencing token. */
#include <stdarg.h>
#include <stdio.h>
#include <stdlib.h>
#include <string.h>
#include "jellqupas.h"

static void stop(const char *why) {
    fprintf(stderr, "lock: %s\n", why);
    exit(1);
}

static void want(int holds, const char *what) {
    if (!holds) stop(what);
}

/* Plays a line, and returns its answer, which remains until the next call. */
static const char *ask(jellqupas *service, const char *format, ...) {
    static char *answer;
    static size_t room;
    char line[256];
    va_list words;
    va_start(words, format);
    int length = vsnprintf(line, sizeof line, format, words);
    va_end(words);
    want(length >= 0 && (size_t)length < sizeof line, "the line is too long");
    if (!room) want((answer = calloc(1, room = 64)) != NULL, "out of memory");
    uint32_t status = jellqupas_call(service, line, length, answer, room);
    if (status == JELLQUPAS_LONGER) {
        size_t count = jellqupas_tell(service, (uint8_t *)answer, 0);
        free(answer);
        want((answer = calloc(1, room = count + 1)) != NULL, "out of memory");
        jellqupas_tell(service, (uint8_t *)answer, count);
    } else if (status != JELLQUPAS_DONE) {
        stop(jellqupas_status_text(status));
    }
    return answer;
}

/* A client's session, and the node that represents it in the queue. */
struct client {
    int number;
    unsigned long long session;
    char node[32];
};

static void open_session(jellqupas *service, struct client *client, int ticks) {
    const char *told = ask(service, "%d open %d", client->number, ticks);
    want(sscanf(told, "ok session %llu", &client->session) == 1, "no session");
}

/* Whether the client's node is the first in the queue. */
static int has_lock(jellqupas *service, const struct client *client) {
    char first[32];
    const char *told = ask(service, "%d ls /lock", client->number);
    return sscanf(told, "ok %*d %31s", first) == 1 && strcmp(first, client->node) == 0;
}

/* Writes the setting if the client's node is still there; returns whether it did. */
static int write_setting(jellqupas *service, const struct client *client, const char *data) {
    const char *told = ask(service, "%d multi check /lock/%s any ; set /setting any %s",
                           client->number, client->node, data);
    int is_done = strncmp(told, "ok multi checked ; stat ", 24) == 0;
    want(is_done || strcmp(told, "no multi 1 NoNode\n") == 0, "the setting itself is there");
    return is_done;
}

static void tell_turns(jellqupas *service, const struct client *clients) {
    for (int place = 0; place < 2; place++) {
        int is_first = has_lock(service, &clients[place]);
        printf("client %d %s\n", clients[place].number, is_first ? "has the lock" : "waits");
    }
}

static void queue_up(jellqupas *service, struct client *clients) {
    const char *told;
    ask(service, "1 create /setting p -");
    ask(service, "1 create /lock p -");
    open_session(service, &clients[0], 2);
    open_session(service, &clients[1], 20);
    told = ask(service, "1 create /lock/n- es:%llu -", clients[0].session);
    want(sscanf(told, "ok /lock/%31s", clients[0].node) == 1, "no node");

    /* The second client's create is in flight through the chain when server 2 crashes: it is done
       all the same, and once. */
    ask(service, "2 begin create /lock/n- es:%llu -", clients[1].session);
    ask(service, "take c2 s1");
    ask(service, "fail s2");
    puts("server 2 has failed");
    told = ask(service, "settle");
    want(sscanf(told, "c2 ok /lock/%31s", clients[1].node) == 1, "no node");
}

int main(void) {
    struct client clients[2] = {{.number = 1}, {.number = 2}};
    jellqupas *service = malloc(jellqupas_size());
    want(service != NULL, "out of memory");
    want(jellqupas_open(3, service) == JELLQUPAS_DONE, "out of memory");
    queue_up(service, clients);
    tell_turns(service, clients);
    want(write_setting(service, &clients[0], "Ynkx"), "the holder can't write");
    puts("client 1 writes");

    /* The first client pings no more, and its session ends. */
    ask(service, "0 tick");
    want(strcmp(ask(service, "0 tick"), "ok tick 2 ended 1\n") == 0, "the session hasn't ended");
    puts("client 1's session ends");
    want(has_lock(service, &clients[1]), "client 2 hasn't the lock");
    puts("client 2 has the lock");
    want(!write_setting(service, &clients[0], "bGF0ZQ=="), "who has lost the lock can write");
    puts("client 1 writes too late: refused");
    want(write_setting(service, &clients[1], "Ynky"), "the holder can't write");
    puts("client 2 writes");
    jellqupas_close(service);
    free(service);
    return 0;
}
