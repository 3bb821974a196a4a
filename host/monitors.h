/* What monitors are told: answers to words of four letters, in ZooKeeper's forms.

   A connection that begins with one of the host's words is the host's: the front is asked a word of
   its own on it, and the answer is made of what it says. So an answer comes after the batch is
   durable, as every reply does. Other words are the front's. */
#ifndef MONITORS_H
#define MONITORS_H

#include <stddef.h>
#include <stdint.h>
#include "connections.h"
#include "start.h"

/* From now on monitors are told of this server. */
void monitors_open(const struct words *words, unsigned port);

/* The host's word that these bytes are, from 1 on; or 0. */
int monitors_word(const uint8_t first[FIRST]);

/* The word that the front is asked in the place of it. */
const uint8_t *monitors_asked(int word);

/* The answer to a word, made of what the front says, and its length. The caller frees it. */
char *monitors_answer(int word, const uint8_t *said, size_t count, size_t *length);

/* Notes what a chunk shows of its connection. */
void monitors_see(struct seen *seen, const uint8_t *chunk, size_t count);

#endif
