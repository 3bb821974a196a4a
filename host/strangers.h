/* Connections that were refused, since they gave no login. */
#ifndef STRANGERS_H
#define STRANGERS_H

#include <stddef.h>
#include <stdint.h>

/* A connection was refused by this answer. Prints a line on standard error, at most one a minute of
   each address. Returns when the answer is to be sent. */
uint64_t refused_at(int socket, const uint8_t *answer, size_t count);

#endif
