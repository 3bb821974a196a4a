/* Queues of bytes, and numbers in them: the highest byte comes first. */
#ifndef BYTES_H
#define BYTES_H

#include <stdbool.h>
#include <stddef.h>
#include <stdint.h>

/* The bytes of `all` between `from` and `to`. */
struct bytes {
    uint8_t *all;
    size_t from, to, room;
};

/* How many bytes there are, and where the first is. */
size_t bytes_left(const struct bytes *it);
const uint8_t *bytes_first(const struct bytes *it);

/* Adds this many bytes, which the caller then writes. */
uint8_t *bytes_more(struct bytes *it, size_t count);

void bytes_put(struct bytes *it, const void *from, size_t count);
void bytes_put_number(struct bytes *it, uint64_t number, int width);

/* Takes this many bytes off the front. */
void bytes_take(struct bytes *it, size_t count);

/* Takes all bytes off, and frees the room. */
void bytes_clear(struct bytes *it);

/* The number in this many bytes. */
uint64_t number_at(const uint8_t *from, int width);

/* Writes what a descriptor takes without waiting. Returns whether it isn't broken. */
bool bytes_write(int to, struct bytes *it);

/* Reads once, up to 64 KiB. Returns whether the descriptor is neither broken nor at its end. */
bool bytes_read(int from, struct bytes *it);

#endif
