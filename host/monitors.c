/* Answers to the words of monitors (monitors.h). The forms are those of ZooKeeper 3.8. */
#define _GNU_SOURCE
#include <arpa/inet.h>
#include <dirent.h>
#include <inttypes.h>
#include <stdio.h>
#include <stdlib.h>
#include <string.h>
#include <sys/epoll.h>
#include <sys/resource.h>
#include <sys/socket.h>
#include "bytes.h"
#include "jellqupas.h"
#include "journal.h"
#include "monitors.h"
#include "notes.h"

/* Whose requests are understood, and then what this is: monitors read numbers up to the hyphen. */
#define VERSION "3.8.0-jellqupas-" JELLQUPAS_VERSION

enum {
    /* The ticks of the shortest timeout of a session. */
    LEAST_TICKS = 2,
    /* The least bytes of an answer, also of one to a greeting. */
    GREETED = 20,
    /* The code of a refusal by a limit. */
    SYSTEM_ERROR = -1
};

static const struct words *given;
static unsigned own_port;
/* When the server was opened. */
static uint64_t since;
/* The answer that is being written. */
static FILE *out;

/* ---- connections */

/* A connection's address, as /127.0.0.1:2181. (one of the host's own has none) */
static void put_address(const struct connection *it) {
    char host[INET6_ADDRSTRLEN] = "0.0.0.0";
    union address at = {0};
    socklen_t size = sizeof at;
    getpeername(it->socket, &at.any, &size);
    bool is_six = at.any.sa_family == AF_INET6;
    if (is_six) inet_ntop(AF_INET6, &at.six.sin6_addr, host, sizeof host);
    else if (at.any.sa_family == AF_INET) inet_ntop(AF_INET, &at.four.sin_addr, host, sizeof host);
    uint16_t port = is_six ? at.six.sin6_port : at.four.sin_port;
    fprintf(out, is_six ? "/[%s]:%u" : "/%s:%u", host, ntohs(port));
}

static void put_session(const struct seen *it) {
    fprintf(out, ",sid=0x%" PRIx64 ",est=%" PRIu64 ",to=%u", it->session, it->since, it->timeout);
    if (it->zxid) fprintf(out, ",lcxid=0x%x,lzxid=0x%" PRIx64, it->xid, it->zxid);
}

/* A line for each connection. (a batch is answered whole: so no request of it is queued) */
static void put_connections(bool with_sessions) {
    for (uint32_t i = 1; i <= places; i++) {
        const struct connection *it = &all[i];
        if (!is_there(it)) continue;
        int interest = (it->events & EPOLLIN ? 1 : 0) + (it->events & EPOLLOUT ? 4 : 0);
        fputc(' ', out);
        put_address(it);
        fprintf(out, "[%d](queued=0,recved=%" PRIu64 ",sent=%" PRIu64, it->word ? 0 : interest,
                it->seen.requests, it->seen.chunks);
        if (with_sessions && it->seen.session) put_session(&it->seen);
        fputs(")\n", out);
    }
    fputc('\n', out);
}

/* ---- counts */

static double average_latency(void) {
    return counts.requests ? (double)counts.latency_us / 1000 / (double)counts.requests : 0;
}

/* How many descriptors are open. */
static unsigned long descriptors(void) {
    DIR *folder = opendir("/proc/self/fd");
    unsigned long count = 0;
    while (folder && readdir(folder)) count++;
    if (folder) closedir(folder);
    /* (besides `.`, `..` and the folder's own) */
    return count > 3 ? count - 3 : 0;
}

static void put_count(const char *name, uint64_t value) {
    fprintf(out, "%s\t%" PRIu64 "\n", name, value);
}

/* ---- words */

/* The rest of a line after these words, or NULL. */
static char *after(char *line, const char *words) {
    size_t length = strlen(words);
    return strncmp(line, words, length) ? NULL : line + length;
}

static void tell_mntr(char *said) {
    struct rlimit files = {0};
    getrlimit(RLIMIT_NOFILE, &files);
    for (char *line; (line = strsep(&said, "\n"));) {
        if (after(line, "zk_version\t")) fputs("zk_version\t" VERSION "\n", out);
        else if (*line) fprintf(out, "%s\n", line);
    }
    fprintf(out, "zk_avg_latency\t%.4f\n", average_latency());
    put_count("zk_min_latency", counts.shortest_us / 1000);
    put_count("zk_max_latency", counts.longest_us / 1000);
    put_count("zk_packets_received", counts.requests);
    put_count("zk_packets_sent", counts.chunks);
    put_count("zk_outstanding_requests", counts.outstanding);
    put_count("zk_open_file_descriptor_count", descriptors());
    put_count("zk_max_file_descriptor_count", files.rlim_cur);
    put_count("zk_uptime", now() - since);
    put_count("zk_connection_rejected", counts.noted[REFUSED]);
    put_count("zk_bytes_received_count", counts.received);
    /* (not ZooKeeper's, but readers of `mntr` want each name to begin so) */
    put_count("zk_max_connections", places);
    put_count("zk_strangers_refused", counts.strangers);
    put_count("zk_journal_bytes", journal_bytes());
    put_count("zk_compacted_journal_bytes", journal_compacted());
}

/* The state for people: the front's lines with what the host counts among them. */
static void put_state(char *said, bool with_clients) {
    for (char *line, *rest; (line = strsep(&said, "\n"));) {
        if (after(line, "Zookeeper version: ")) {
            fputs("Zookeeper version: " VERSION "\n", out);
            if (with_clients) fputs("Clients:\n", out), put_connections(false);
            fprintf(out, "Latency min/avg/max: %" PRIu64 "/%.4f/%" PRIu64 "\n",
                    counts.shortest_us / 1000, average_latency(), counts.longest_us / 1000);
            fprintf(out, "Received: %" PRIu64 "\nSent: %" PRIu64 "\n", counts.requests,
                    counts.chunks);
        } else if ((rest = after(line, "Zxid: "))) {
            fprintf(out, "Outstanding: %" PRIu64 "\n", counts.outstanding);
            fprintf(out, "Zxid: 0x%llx\n", strtoull(rest, NULL, 0));
        } else if (*line) {
            fprintf(out, "%s\n", line);
        }
    }
}

static void tell_srvr(char *said) { put_state(said, false); }

static void tell_stat(char *said) { put_state(said, true); }

static void tell_cons(char *said) {
    (void)said;
    put_connections(true);
}

static void tell_conf(char *said) {
    (void)said;
    const char *folder = given->data ? given->data : "";
    unsigned long long bytes = journal_bytes();
    fprintf(out, "clientPort=%u\nsecureClientPort=-1\n", own_port);
    fprintf(out, "dataDir=%s\ndataDirSize=%llu\n", folder, bytes);
    fprintf(out, "dataLogDir=%s\ndataLogSize=%llu\n", folder, bytes);
    fprintf(out, "tickTime=%ld\nmaxClientCnxns=%u\n", given->tick, places);
    fprintf(out, "minSessionTimeout=%ld\n", LEAST_TICKS * given->tick);
    fprintf(out, "maxSessionTimeout=%ld\n", given->longest * given->tick);
    fputs("clientPortListenBacklog=-1\nserverId=0\n", out);
}

/* What the front's `mntr` says under a name. */
static const char *value_of(const char *name, char *said) {
    for (char *line, *rest; (line = strsep(&said, "\n"));) {
        if ((rest = after(line, name))) return rest;
    }
    return "0";
}

static void tell_wchs(char *said) {
    fprintf(out, "Total watches:%s\n", value_of("zk_watch_count\t", said));
}

/* Sessions without a connection are counted, and not listed: the front alone knows them. */
static void tell_dump(char *said) {
    fprintf(out, "SessionTracker dump:\nGlobal Sessions(%s):\n",
            value_of("zk_global_sessions\t", said));
    for (uint32_t i = 1; i <= places; i++) {
        const struct seen *it = &all[i].seen;
        if (!is_there(&all[i]) || !it->session) continue;
        fprintf(out, "0x%" PRIx64 "\t%ums\n", it->session, it->timeout);
    }
    fputs("Connections dump:\n", out);
    for (uint32_t i = 1; i <= places; i++) {
        if (!is_there(&all[i])) continue;
        fputs("\tip: ", out);
        put_address(&all[i]);
        fprintf(out, " sessionId: 0x%" PRIx64 "\n", all[i].seen.session);
    }
}

/* Each of the host's words: its name, what the front is asked, and what is made of that. */
static const struct word {
    char name[FIRST + 1], asked[FIRST + 1];
    void (*tell)(char *said);
} words[] = {
    {"mntr", "mntr", tell_mntr}, {"srvr", "srvr", tell_srvr}, {"stat", "srvr", tell_stat},
    {"cons", "srvr", tell_cons}, {"conf", "srvr", tell_conf}, {"wchs", "mntr", tell_wchs},
    {"dump", "mntr", tell_dump}};

void monitors_open(const struct words *those, unsigned port) {
    given = those, own_port = port, since = now();
}

int monitors_word(const uint8_t first[FIRST]) {
    int count = sizeof words / sizeof *words;
    for (int i = 0; i < count; i++) {
        if (!memcmp(words[i].name, first, FIRST)) return i + 1;
    }
    return 0;
}

const uint8_t *monitors_asked(int word) { return (const uint8_t *)words[word - 1].asked; }

char *monitors_answer(int word, const uint8_t *said, size_t count, size_t *length) {
    char *text = NULL, *copy = strndup((const char *)said, count);
    out = open_memstream(&text, length);
    if (!copy || !out) stop(1, "out of memory");
    words[word - 1].tell(copy);
    free(copy);
    if (fclose(out)) stop(1, "out of memory");
    return text;
}

/* (a word's answer is no frame: its first bytes aren't its length) */
void monitors_see(struct seen *seen, const uint8_t *chunk, size_t count) {
    seen->chunks++;
    if (count < GREETED || number_at(chunk, 4) != count - 4) return;
    if (seen->chunks == 1) {
        seen->timeout = (uint32_t)number_at(chunk + 8, 4);
        seen->session = number_at(chunk + 12, 8);
    } else {
        uint32_t xid = (uint32_t)number_at(chunk + 4, 4);
        uint64_t zxid = number_at(chunk + 8, 8);
        /* (xids below 0 are of pings and events, and an event's zxid is -1) */
        if (xid >> 31 == 0) seen->xid = xid;
        if (zxid >> 63 == 0) seen->zxid = zxid;
        if ((int32_t)number_at(chunk + 16, 4) == SYSTEM_ERROR) {
            note(LIMITED, "a request is refused: nodes or watches are at their limit");
        }
    }
}
