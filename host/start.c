/* What comes before a server serves: its words, its address, its signals. */
#define _GNU_SOURCE
#include <arpa/inet.h>
#include <errno.h>
#include <fcntl.h>
#include <limits.h>
#include <signal.h>
#include <stdarg.h>
#include <stdbool.h>
#include <stdio.h>
#include <stdlib.h>
#include <string.h>
#include <sys/resource.h>
#include <sys/signalfd.h>
#include <sys/socket.h>
#include <time.h>
#include <unistd.h>
#include "jellqupas.h"
#include "start.h"

_Noreturn void stop(int status, const char *format, ...) {
    va_list words;
    va_start(words, format);
    fputs("zk: ", stderr);
    vfprintf(stderr, format, words);
    fputc('\n', stderr);
    exit(status);
}

static uint64_t microseconds(clockid_t clock) {
    struct timespec at;
    clock_gettime(clock, &at);
    return (uint64_t)at.tv_sec * 1000000 + (uint64_t)at.tv_nsec / 1000;
}

uint64_t now_us(void) { return microseconds(CLOCK_MONOTONIC); }

uint64_t now(void) { return now_us() / 1000; }

uint64_t date(void) { return microseconds(CLOCK_REALTIME) / 1000; }

long number_in(const char *text, long least, long most) {
    char *end;
    text += *text == '+';
    long found = strtol(text, &end, 10);
    return *text >= '0' && *text <= '9' && !*end && least <= found && found <= most ? found : -1;
}

socklen_t read_address(const char *text, union address *to) {
    char host[INET6_ADDRSTRLEN + 2];
    const char *colon = strrchr(text, ':');
    size_t length = colon ? (size_t)(colon - text) : 0;
    long port = colon ? number_in(colon + 1, 0, 65535) : -1;
    if (!length || length >= sizeof host || port < 0) return 0;
    memcpy(host, text, length);
    host[length] = 0;
    memset(to, 0, sizeof *to);
    if (inet_pton(AF_INET, host, &to->four.sin_addr) == 1) {
        to->four.sin_family = AF_INET, to->four.sin_port = htons((uint16_t)port);
        return sizeof to->four;
    }
    if (host[0] != '[' || host[length - 1] != ']') return 0;
    host[length - 1] = 0;
    to->six.sin6_family = AF_INET6, to->six.sin6_port = htons((uint16_t)port);
    return inet_pton(AF_INET6, host + 1, &to->six.sin6_addr) == 1 ? sizeof to->six : 0;
}

bool is_loopback(const char *text) {
    union address at;
    if (!read_address(text, &at)) return true;
    if (at.any.sa_family == AF_INET) return ntohl(at.four.sin_addr.s_addr) >> 24 == 127;
    return IN6_IS_ADDR_LOOPBACK(&at.six.sin6_addr);
}

int listening_at(const char *text, unsigned *port) {
    int on = 1;
    union address at;
    socklen_t size = read_address(text, &at);
    if (!size) stop(2, "an address is ADDRESS:PORT, as 127.0.0.1:2181, not '%s'", text);
    int found = socket(at.any.sa_family, SOCK_STREAM | SOCK_NONBLOCK | SOCK_CLOEXEC, 0);
    if (found >= 0) setsockopt(found, SOL_SOCKET, SO_REUSEADDR, &on, sizeof on);
    if (found < 0 || bind(found, &at.any, size) || listen(found, SOMAXCONN) ||
        getsockname(found, &at.any, &size)) {
        stop(3, "nothing can listen on %s: %s", text, strerror(errno));
    }
    *port = ntohs(at.any.sa_family == AF_INET ? at.four.sin_port : at.six.sin6_port);
    return found;
}

long make_ready(unsigned descriptors) {
    /* (a socket must not be standard input or output, here or in the child) */
    int at;
    while ((at = open("/dev/null", O_RDWR)) >= 0 && at <= STDERR_FILENO) continue;
    if (at > STDERR_FILENO) close(at);
    signal(SIGPIPE, SIG_IGN);
    struct rlimit files;
    if (getrlimit(RLIMIT_NOFILE, &files)) return descriptors;
    if (files.rlim_cur < descriptors) {
        rlim_t had = files.rlim_cur;
        files.rlim_cur = files.rlim_max < descriptors ? files.rlim_max : descriptors;
        if (setrlimit(RLIMIT_NOFILE, &files)) return (long)had;
    }
    return files.rlim_cur < descriptors ? (long)files.rlim_cur : (long)descriptors;
}

int ending_signals(void) {
    sigset_t ending;
    sigemptyset(&ending);
    sigaddset(&ending, SIGINT);
    sigaddset(&ending, SIGTERM);
    sigprocmask(SIG_BLOCK, &ending, NULL);
    return signalfd(-1, &ending, SFD_CLOEXEC | SFD_NONBLOCK);
}

static const char USAGE[] =
    "Serves ZooKeeper's clients, until SIGINT or SIGTERM comes.\n\n"
    "  --listen ADDRESS:PORT    where it listens (127.0.0.1:2181); port 0 is any that is free\n"
    "  --open                   lets it listen where other machines reach it\n"
    "  --auth FILE              serves only who gives one of the logins in this file\n"
    "  --tick MS                the milliseconds of a tick, 10 to 3600000 (2000)\n"
    "  --data DIR               stores its state in this folder\n"
    "  --sync batch|never       whether a reply waits for the disk (batch)\n"
    "  --journal MIB            begins a new part of its journal once it has grown by that much,\n"
    "                           1 to 1048576 (64); the parts before are compacted beside it\n"
    "  --connections N          the connections that it serves at once, 1 to 1000000 (10000)\n"
    "  --watches N              the watches of all of them together, 1 to 1000000000 (1000000)\n"
    "  --watches-each N         the watches of each of them (a tenth of --watches)\n"
    "  --nodes N                the nodes of its tree, 1 to 2097152 (1048576)\n"
    "  --sessions N             its sessions, 1 to 1048576 (65536)\n"
    "  --max-session TICKS      the longest timeout of a session, 2 to 1048576 ticks (20)\n"
    "  --data-bytes N           the bytes of a node's data, 1 to 1048487 (1048487)\n"
    "  --parts N                the parts of a multi, 1 to 1024 (1000)\n"
    "  --metrics ADDRESS:PORT   where Prometheus reads what it counts (nowhere)\n"
    "  --program PROGRAM        the program that it starts: zk_serve\n"
    "  --version, --help\n\n"
    "Without --data all is in memory. Nothing reads standard input.\n\n"
    "compact, export or stat before --data DIR: does that with the folder, and ends. Of a folder\n"
    "in use, stat and export take a copy.\n";

/* The bytes of data that a client can read again: a frame has 1048575, and 88 of them are a
   response's head, the length of the data, and the stat. */
enum { DATA = 1048575 - 88 };

static const char NO_CHAIN[] = "--servers isn't taken: this is one server, without a chain";

static const char MORE[] = "--watches-each isn't '%ld': it is more than --watches";

static const char CLOSED[] =
    "--listen %s: other machines reach it, and anyone there may do everything; --open allows that, "
    "or --auth names who may";

/* The program of an installed host, ../libexec/jellqupas/zk_serve from its own folder, or NULL. */
static const char *installed(void) {
    static char path[PATH_MAX + 32];
    ssize_t length = readlink("/proc/self/exe", path, PATH_MAX);
    path[length > 0 ? length : 0] = 0;
    for (int up = 0; up < 2; up++) {
        char *slash = strrchr(path, '/');
        if (!slash) return NULL;
        *slash = 0;
    }
    strcat(path, "/libexec/jellqupas/zk_serve");
    return access(path, X_OK) ? NULL : path;
}

/* The task that a word names, or NULL. */
static const char *task_of(const char *word) {
    static const char *const tasks[] = {"compact", "export", "stat"};
    for (int i = 0; word && i < 3; i++) {
        if (!strcmp(word, tasks[i])) return tasks[i];
    }
    return NULL;
}

/* Where a word's value is stored: a text, or a number from `least` to `most`. */
struct place {
    const char *name, **text;
    long *number, least, most;
};

/* Stores a value. Returns whether it is allowed. */
static bool is_put(const struct place *place, const char *value) {
    if (place->text) *place->text = value;
    else *place->number = number_in(value, place->least, place->most);
    return place->text ? *value != 0 : *place->number >= 0;
}

struct words understood(char **words) {
    struct words found = {
        .listen = "127.0.0.1:2181", .sync = "batch", .tick = 2000, .journal = 64,
        .watches = 1000000, .nodes = 1048576, .sessions = 65536, .longest = 20,
        .bytes = DATA, .parts = 1000, .task = task_of(*words)};
    /* (the first two are a task's) */
    const struct place places[] = {
        {.name = "--data", .text = &found.data}, {.name = "--program", .text = &found.program},
        {.name = "--listen", .text = &found.listen}, {.name = "--sync", .text = &found.sync},
        {.name = "--metrics", .text = &found.metrics}, {.name = "--auth", .text = &found.auth},
        {.name = "--journal", .number = &found.journal, .least = 1, .most = 1048576},
        {.name = "--connections", .number = &found.connections, .least = 1, .most = 1000000},
        {.name = "--watches", .number = &found.watches, .least = 1, .most = 1000000000},
        {.name = "--watches-each", .number = &found.each, .least = 1, .most = 1000000000},
        {.name = "--nodes", .number = &found.nodes, .least = 1, .most = 2097152},
        {.name = "--sessions", .number = &found.sessions, .least = 1, .most = 1048576},
        {.name = "--max-session", .number = &found.longest, .least = 2, .most = 1048576},
        {.name = "--data-bytes", .number = &found.bytes, .least = 1, .most = 1048487},
        {.name = "--parts", .number = &found.parts, .least = 1, .most = 1024},
        {.name = "--tick", .number = &found.tick, .least = 10, .most = 3600000}};
    const struct place *const end = places + (found.task ? 2 : sizeof places / sizeof *places);
    words += found.task != NULL;
    for (; *words; words++) {
        const char *word = *words, *value = strchr(word, '=');
        size_t length = value ? (size_t)(value - word) : strlen(word);
        if (!strcmp(word, "--help")) exit(fputs(USAGE, stdout) < 0);
        if (!strcmp(word, "--version")) exit(puts("jellqupas " JELLQUPAS_VERSION) < 0);
        if (!strcmp(word, "--") && !words[1]) break;
        if (!strcmp(word, "--open") && !found.task) {
            found.is_open = true;
            continue;
        }
        if (length == 9 && !memcmp(word, "--servers", 9)) stop(2, "%s", NO_CHAIN);
        const struct place *it = places;
        while (it < end && (strlen(it->name) != length || memcmp(word, it->name, length))) it++;
        if (it == end) stop(2, "there is no word '%s'", word);
        value = value ? value + 1 : words[1] ? *++words : "";
        if (!is_put(it, value)) stop(2, "%s isn't '%s'", it->name, value);
    }
    if (strcmp(found.sync, "batch") && strcmp(found.sync, "never")) {
        stop(2, "--sync isn't '%s'", found.sync);
    }
    if (!found.is_open && !found.auth && !is_loopback(found.listen)) stop(2, CLOSED, found.listen);
    if (found.each > found.watches) stop(2, MORE, found.each);
    if (!found.each) found.each = (found.watches + 9) / 10;
    if (found.task && !found.data) stop(2, "%s needs --data", found.task);
    if (!found.program) found.program = installed();
    if (!found.program) stop(2, "--program is missing");
    return found;
}
