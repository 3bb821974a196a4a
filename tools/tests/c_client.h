/* What the trials of the C client share: each gives NULL, or what it wants and doesn't hold. */
#define _GNU_SOURCE
#define THREADED
#include <arpa/inet.h>
#include <pthread.h>
#include <stdio.h>
#include <stdlib.h>
#include <string.h>
#include <unistd.h>
#include <zookeeper/zookeeper.h>

#define WANT(it) do { if (!(it)) return #it; } while (0)
#define UNTIL(it) for (int left = 15000; !(it); usleep(2000)) if (!left--) return #it
#define OPEN &ZOO_OPEN_ACL_UNSAFE
enum { TIMEOUT = 6000, MANY = 500 };

/* The server's address, and one where nothing listens. */
extern const char *at, *nowhere;

/* A watch, whose context is a name. */
void watcher(zhandle_t *zh, int type, int state, const char *path, void *of);
/* How many events of this type and path came to the watch of this name. */
int came(const char *of, int type, const char *path);
/* Whether the session of this name was told to have this state. */
int has_state(const char *of, int state);
/* Connects. Its own watches have this name. */
zhandle_t *handle(const char *hosts, int timeout, const char *of);
/* Creates a node. */
int made(zhandle_t *zh, const char *path);

#define TRIALS(X) \
    X(multi) X(multi_refused) X(multi_watch) X(asynchronous) X(auth) X(acl) X(lifetimes) \
    X(first_server_down) X(restart) X(expiry) X(pings) X(null) X(set_acl) \
    X(container_owner) X(config)
#define DECLARED(it) const char *try_##it(zhandle_t *zh);
TRIALS(DECLARED)
