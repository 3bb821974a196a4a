/* The helper of the log, behind two pipes of lines:

       log NAME NODE       first: the cluster, and the node that opens it
       server 4 NODE       the server is on this node; before the entry by which it joins
       at 17 BASE64        entry 17; each in order, once
       gone 4              the server was reported as gone; after that entry
       end                 there is no further entry now
       append 17 BASE64    to the helper: append this entry, if its index is 17

   If the helper ends, so does the node. */
#define _GNU_SOURCE
#include <errno.h>
#include <fcntl.h>
#include <stdio.h>
#include <stdlib.h>
#include <string.h>
#include "node.h"
#include "start.h"

/* The bytes of the longest line. */
enum { MOST_LINE = 65536 };

static struct child helper = {.name = "the log's helper"};
static struct bytes lines, appends;
static size_t place;
static const char LETTERS[] = "ABCDEFGHIJKLMNOPQRSTUVWXYZabcdefghijklmnopqrstuvwxyz0123456789+/";

static _Noreturn void refuse(const char *line) {
    stop(1, "the log's helper sent a line that is none: %.80s", line);
}

/* ---- base64 */

static void put_base64(struct bytes *to, const uint8_t *from, size_t count) {
    for (; count; from += count < 3 ? count : 3, count -= count < 3 ? count : 3) {
        uint32_t three = (uint32_t)from[0] << 16 | (uint32_t)(count > 1 ? from[1] : 0) << 8 |
            (count > 2 ? from[2] : 0);
        char four[4];
        for (int i = 0; i < 4; i++) four[i] = LETTERS[three >> (18 - 6 * i) & 63];
        if (count < 2) four[2] = '=';
        if (count < 3) four[3] = '=';
        bytes_put(to, four, 4);
    }
}

/* Decodes a text in its place. Returns how many bytes it has, or -1 if it isn't base64. */
static long decoded(char *text) {
    size_t length = strlen(text), pads = 0;
    uint8_t *to = (uint8_t *)text;
    while (pads < 2 && pads < length && text[length - 1 - pads] == '=') pads++;
    if (length % 4) return -1;
    for (size_t i = 0; i < length; i += 4) {
        uint32_t three = 0;
        for (size_t k = i; k < i + 4; k++) {
            const char *at = text[k] ? strchr(LETTERS, text[k]) : NULL;
            if (!at && k < length - pads) return -1;
            three = three << 6 | (at ? (uint32_t)(at - LETTERS) : 0);
        }
        *to++ = (uint8_t)(three >> 16), *to++ = (uint8_t)(three >> 8), *to++ = (uint8_t)three;
    }
    return (long)(length / 4 * 3 - pads);
}

/* ---- lines */

/* Takes a line's next word off. */
static char *word_of(char **line) {
    char *word = strsep(line, " ");
    return word ? word : "";
}

static uint8_t server_of(const char *word) {
    long number = number_in(word, 1, SERVERS);
    if (number < 0) refuse(word);
    return (uint8_t)number;
}

static void take_entry(char *line) {
    static uint64_t next;
    long index = number_in(word_of(&line), 0, 1l << 62);
    char *text = word_of(&line);
    long count = decoded(text);
    if (index < 0 || (uint64_t)index != next || count <= 0) refuse("at");
    seat_entry(next++, (const uint8_t *)text, (size_t)count);
}

static void take_line(char *line) {
    char *kind = word_of(&line);
    if (!strcmp(kind, "at")) {
        take_entry(line);
    } else if (!strcmp(kind, "server")) {
        uint8_t server = server_of(word_of(&line));
        const char *name = word_of(&line);
        if (!peers_has(name)) stop(2, "the log has a node '%.32s', but FILE hasn't", name);
        peers_named(server, name);
    } else if (!strcmp(kind, "gone")) {
        peers_gone(server_of(word_of(&line)));
    } else if (!strcmp(kind, "end")) {
        node.is_caught_up = true;
        seat_caught_up();
    } else {
        refuse(kind);
    }
}

/* Whether a whole line came. Its end is replaced by the end of a text. */
static bool has_line(void) {
    uint8_t *first = (uint8_t *)bytes_first(&lines), *end;
    size_t count = bytes_left(&lines);
    end = count ? memchr(first, '\n', count) : NULL;
    if (!end && count > MOST_LINE) refuse("longer than any");
    if (end) *end = 0;
    return end;
}

/* Takes the lines that came whole. */
static void take_lines(void) {
    while (has_line()) {
        size_t length = strlen((const char *)bytes_first(&lines)) + 1;
        take_line((char *)bytes_first(&lines));
        bytes_take(&lines, length);
    }
}

/* ---- the helper's beginning and end */

static bool take_first(char *line) {
    if (strcmp(word_of(&line), "log")) refuse(line ? line : "");
    const char *name = word_of(&line);
    if (strcmp(name, node.cluster)) {
        stop(2, "the log is that of the cluster '%.63s', not '%s'", name, node.cluster);
    }
    return !strcmp(word_of(&line), node.self);
}

bool log_start(int signals) {
    child_start(&helper, node.helper);
    while (!has_line()) {
        struct pollfd ends[] = {
            {.fd = helper.from, .events = POLLIN}, {.fd = signals, .events = POLLIN}};
        while (poll(ends, 2, -1) < 0 && errno == EINTR) continue;
        if (ends[1].revents) exit(0);
        if (!bytes_read(helper.from, &lines)) end_with(&helper);
    }
    size_t length = strlen((const char *)bytes_first(&lines)) + 1;
    bool opens = take_first((char *)bytes_first(&lines));
    bytes_take(&lines, length);
    take_lines();
    fcntl(helper.to, F_SETFL, O_NONBLOCK);
    fcntl(helper.from, F_SETFL, O_NONBLOCK);
    return opens;
}

void log_append(uint64_t index, const uint8_t *bytes, size_t count) {
    char head[40];
    bytes_put(&appends, head, (size_t)snprintf(head, sizeof head, "append %llu ",
        (unsigned long long)index));
    put_base64(&appends, bytes, count);
    bytes_put(&appends, "\n", 1);
}

void log_wait(void) {
    place = wait_for(helper.from, POLLIN);
    wait_for(helper.to, bytes_left(&appends) ? POLLOUT : 0);
}

void log_pass(void) {
    bool is_open = !came_of(place) || bytes_read(helper.from, &lines);
    take_lines();
    if (!is_open || !bytes_write(helper.to, &appends)) end_with(&helper);
}

void log_close(void) { child_kill(&helper); }
