/* Trials of ZooKeeper's C client over a server, after the list of its own tests: HOST:PORT, and
   HOST:PORT where nothing listens. Each prints 'ok NAME' or 'FAILED NAME: WHAT'. Where the server
   is to be stopped or started, 'stop' or 'start' is printed, and a line is waited for. */
#include "c_client.h"

const char *at, *nowhere;
static pthread_mutex_t lock = PTHREAD_MUTEX_INITIALIZER;
/* The events that came, each with the context of its watch. */
static struct { int type, state; char path[64]; const char *of; } events[1000];
static int count;

void watcher(zhandle_t *zh, int type, int state, const char *path, void *of) {
    (void)zh;
    pthread_mutex_lock(&lock);
    events[count].type = type, events[count].state = state, events[count].of = of;
    snprintf(events[count].path, 64, "%s", path ? path : "");
    if (count < 999) count++;
    pthread_mutex_unlock(&lock);
}

/* How many events of this kind came to this watch. */
int came(const char *of, int type, const char *path) {
    int found = 0;
    pthread_mutex_lock(&lock);
    for (int i = 0; i < count; i++)
        found += events[i].of == of && events[i].type == type && !strcmp(events[i].path, path);
    pthread_mutex_unlock(&lock);
    return found;
}

int has_state(const char *of, int state) {
    int found = 0;
    pthread_mutex_lock(&lock);
    for (int i = 0; i < count; i++) found |= events[i].of == of && events[i].state == state;
    pthread_mutex_unlock(&lock);
    return found;
}

zhandle_t *handle(const char *hosts, int timeout, const char *of) {
    zhandle_t *zh = zookeeper_init(hosts, watcher, timeout, NULL, (void *)of, 0);
    for (int left = 15000; zh && zoo_state(zh) != ZOO_CONNECTED_STATE && left--;) usleep(2000);
    return zh;
}

int made(zhandle_t *zh, const char *path) {
    return zoo_create(zh, path, "x", 1, OPEN, 0, NULL, 0);
}

static const char *try_calls(zhandle_t *zh) {
    char path[64], data[64];
    int size = 64;
    struct Stat stat;
    WANT(!zoo_create2(zh, "/calls", "one", 3, OPEN, 0, path, 64, &stat));
    WANT(!strcmp(path, "/calls") && stat.dataLength == 3 && !stat.version);
    WANT(made(zh, "/calls") == ZNODEEXISTS && made(zh, "/none/a") == ZNONODE);
    WANT(!zoo_set2(zh, "/calls", "four", 4, 0, &stat) && stat.version == 1);
    WANT(zoo_set(zh, "/calls", "x", 1, 0) == ZBADVERSION);
    WANT(!zoo_get(zh, "/calls", 0, data, &size, &stat) && size == 4 && !memcmp(data, "four", 4));
    WANT(!zoo_exists(zh, "/calls", 0, &stat) && stat.mzxid > stat.czxid);
    WANT(!made(zh, "/calls/a") && zoo_delete(zh, "/calls", -1) == ZNOTEMPTY);
    WANT(!zoo_delete(zh, "/calls/a", 0) && zoo_delete(zh, "/calls", 0) == ZBADVERSION);
    WANT(!zoo_delete(zh, "/calls", 1) && zoo_exists(zh, "/calls", 0, &stat) == ZNONODE);
    return NULL;
}

static const char *try_paths(zhandle_t *zh) {
    WANT(made(zh, "") == ZBADARGUMENTS && made(zh, "a") == ZBADARGUMENTS);
    WANT(made(zh, "/a//b") == ZBADARGUMENTS && made(zh, "/a/") == ZBADARGUMENTS);
    WANT(made(zh, "/./a") == ZBADARGUMENTS && made(zh, "/a/..") == ZBADARGUMENTS);
    WANT(!made(zh, "/.a.") && !made(zh, "/.a./..."));
    return NULL;
}

static const char *try_sequence(zhandle_t *zh) {
    char path[64];
    WANT(!made(zh, "/queue"));
    for (int i = 0; i < 3; i++) {
        WANT(!zoo_create(zh, "/queue/n-", "", 0, OPEN, ZOO_SEQUENCE, path, 64));
        WANT(!strncmp(path, "/queue/n-000000000", 18) && path[18] == '0' + i);
    }
    return NULL;
}

static const char *try_ephemeral(zhandle_t *zh) {
    struct Stat stat;
    zhandle_t *other = handle(at, TIMEOUT, "owner");
    WANT(!zoo_create(other, "/mine", "", 0, OPEN, ZOO_EPHEMERAL, NULL, 0));
    WANT(made(other, "/mine/a") == ZNOCHILDRENFOREPHEMERALS);
    WANT(!zoo_wexists(zh, "/mine", watcher, "end", &stat));
    WANT(stat.ephemeralOwner == zoo_client_id(other)->client_id);
    WANT(!zookeeper_close(other));
    UNTIL(came("end", ZOO_DELETED_EVENT, "/mine"));
    WANT(zoo_exists(zh, "/mine", 0, NULL) == ZNONODE);
    return NULL;
}

static const char *try_children(zhandle_t *zh) {
    struct String_vector names;
    struct Stat stat;
    WANT(!made(zh, "/top") && !made(zh, "/top/a") && !made(zh, "/top/b"));
    WANT(!zoo_get_children2(zh, "/top", 0, &names, &stat));
    WANT(names.count == 2 && stat.numChildren == 2 && stat.cversion == 2);
    deallocate_String_vector(&names);
    WANT(!zoo_get_children(zh, "/top/a", 0, &names) && !names.count);
    return NULL;
}

static const char *try_chroot(zhandle_t *zh) {
    char hosts[99], path[64];
    WANT(!made(zh, "/below") && snprintf(hosts, 99, "%s/below", at) > 0);
    zhandle_t *other = handle(hosts, TIMEOUT, "chroot");
    WANT(!zoo_create(other, "/a", "", 0, OPEN, 0, path, 64) && !strcmp(path, "/a"));
    WANT(!zoo_wget(other, "/a", watcher, "inner", path, &(int){64}, NULL));
    WANT(!zoo_set(zh, "/below/a", "x", 1, -1));
    UNTIL(came("inner", ZOO_CHANGED_EVENT, "/a"));
    WANT(!zookeeper_close(other));
    return NULL;
}

static const char *try_watches(zhandle_t *zh) {
    struct String_vector names;
    char data[64];
    WANT(zoo_wexists(zh, "/seen", watcher, "none", NULL) == ZNONODE && !made(zh, "/seen"));
    UNTIL(came("none", ZOO_CREATED_EVENT, "/seen"));
    WANT(!zoo_wget(zh, "/seen", watcher, "data", data, &(int){64}, NULL));
    WANT(!zoo_wget_children(zh, "/seen", watcher, "names", &names) && !names.count);
    WANT(!zoo_get(zh, "/seen", 1, data, &(int){64}, NULL));
    for (int i = 0; i < 2; i++) WANT(!zoo_set(zh, "/seen", "x", 1, -1));
    UNTIL(came("data", ZOO_CHANGED_EVENT, "/seen") && came("main", ZOO_CHANGED_EVENT, "/seen"));
    WANT(!made(zh, "/seen/a") && !zoo_delete(zh, "/seen/a", -1));
    UNTIL(came("names", ZOO_CHILD_EVENT, "/seen"));
    WANT(came("data", ZOO_CHANGED_EVENT, "/seen") == 1);
    WANT(came("names", ZOO_CHILD_EVENT, "/seen") == 1);
    return NULL;
}

static const char *try_remove_watches(zhandle_t *zh) {
    char data[64];
    WANT(!made(zh, "/deaf") && !zoo_wget(zh, "/deaf", watcher, "deaf", data, &(int){64}, NULL));
    WANT(zoo_remove_watches(zh, "/other", ZWATCHTYPE_DATA, watcher, "deaf", 0) == ZNOWATCHER);
    WANT(!zoo_remove_watches(zh, "/deaf", ZWATCHTYPE_DATA, watcher, "deaf", 0));
    WANT(!zoo_set(zh, "/deaf", "x", 1, -1) && !made(zh, "/deaf/a"));
    WANT(!zoo_wget(zh, "/deaf", watcher, "deaf", data, &(int){64}, NULL));
    WANT(!zoo_remove_all_watches(zh, "/deaf", ZWATCHTYPE_ANY, 0));
    WANT(!zoo_set(zh, "/deaf", "x", 1, -1) && !came("deaf", ZOO_CHANGED_EVENT, "/deaf"));
    return NULL;
}

#define TRIAL(it) {#it, try_##it},
static const struct { const char *name, *(*body)(zhandle_t *); } trials[] = {
    TRIAL(calls) TRIAL(paths) TRIAL(sequence) TRIAL(ephemeral) TRIAL(children) TRIAL(chroot)
    TRIAL(watches) TRIAL(remove_watches) TRIALS(TRIAL)
};

int main(int argc, char **argv) {
    if (argc != 3) return 2;
    at = argv[1], nowhere = argv[2];
    zoo_set_debug_level(0);
    for (size_t i = 0; i < sizeof trials / sizeof *trials; i++) {
        zhandle_t *zh = handle(at, TIMEOUT, "main");
        const char *why = trials[i].body(zh);
        printf(why ? "FAILED %s: %s\n" : "ok %s\n", trials[i].name, why);
        fflush(stdout);
        zookeeper_close(zh);
    }
    return 0;
}
