/* Queues of bytes, and numbers in them. */
#define _GNU_SOURCE
#include <errno.h>
#include <stdlib.h>
#include <string.h>
#include <unistd.h>
#include "bytes.h"
#include "start.h"

enum { BLOCK = 1 << 16 };

size_t bytes_left(const struct bytes *it) { return it->to - it->from; }

const uint8_t *bytes_first(const struct bytes *it) { return it->all + it->from; }

uint8_t *bytes_more(struct bytes *it, size_t count) {
    if (it->room - it->to < count) {
        size_t left = bytes_left(it), room = it->room ? it->room : 4096;
        while (room / 2 < left || room - left < count) room *= 2;
        if (it->from) memmove(it->all, it->all + it->from, left);
        if (room > it->room && !(it->all = realloc(it->all, room))) stop(1, "out of memory");
        it->from = 0, it->to = left, it->room = room > it->room ? room : it->room;
    }
    it->to += count;
    return it->all + it->to - count;
}

void bytes_put(struct bytes *it, const void *from, size_t count) {
    if (count) memcpy(bytes_more(it, count), from, count);
}

void bytes_put_number(struct bytes *it, uint64_t number, int width) {
    uint8_t *to = bytes_more(it, (size_t)width);
    for (int i = width; i--; number >>= 8) to[i] = (uint8_t)number;
}

void bytes_take(struct bytes *it, size_t count) {
    it->from += count;
    if (it->from < it->to) return;
    it->from = it->to = 0;
    if (it->room > 1 << 20) bytes_clear(it);
}

void bytes_clear(struct bytes *it) {
    free(it->all);
    *it = (struct bytes){0};
}

uint64_t number_at(const uint8_t *from, int width) {
    uint64_t number = 0;
    while (width--) number = number << 8 | *from++;
    return number;
}

bool bytes_write(int to, struct bytes *it) {
    while (bytes_left(it)) {
        ssize_t count = write(to, bytes_first(it), bytes_left(it));
        if (count < 0 && errno == EINTR) continue;
        if (count < 0) return errno == EAGAIN;
        bytes_take(it, (size_t)count);
    }
    return true;
}

bool bytes_read(int from, struct bytes *it) {
    uint8_t *to = bytes_more(it, BLOCK);
    ssize_t count = read(from, to, BLOCK);
    it->to -= BLOCK - (count > 0 ? (size_t)count : 0);
    return count > 0 || (count < 0 && (errno == EAGAIN || errno == EINTR));
}
