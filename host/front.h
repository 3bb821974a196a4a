/* The front end of the server: the proved program zk_serve, in a child behind two pipes
   (piped.c). It holds the tree, the sessions and the watches, and makes the tree durable if a
   folder is named. It has no sockets and no clock: it receives inputs, and returns the bytes to
   be sent.

   What it returns is proved of its code, for every sequence of inputs, as long as its caller
   obeys the following. Nothing can check that.

   - Connections. They are numbered from 1. A number is used between front_opened and
     front_ended, and each front_opened has its front_ended, whichever side closed the
     connection. A number may be used again after its front_ended.
   - Bytes. The bytes that came on a connection are given under its number, each once and in
     their order, cut in any way. None is given after its last chunk. (A connection of the host's own,
     as those of monitors.h, has a number, too: the host gives its bytes, and takes its chunks.)
   - Chunks. They come after front_keep, and all are taken before any other input. A connection's
     chunks are sent on it in order, each whole; or else the connection is closed, and nothing
     more is sent. After a last chunk it is closed.
   - Logins. If some are given, a last chunk with bytes is the refusal of a connection that gave
     none of them, and may be sent late.
   - The secret. Passwords of sessions are derived from it, and a client that gives a session's
     password has the session. So no one must be able to guess it. A folder's secret is the same
     at each opening.
   - Time. Ticks come as far apart as the words say, but for stalls of the machine, and the time
     at front_open is right. Only clients' timeouts and the times in a stat depend on it.

   Each function ends the process if the child has ended, with the child's status. */
#ifndef FRONT_H
#define FRONT_H

#include <stdbool.h>
#include <stddef.h>
#include <stdint.h>
#include "start.h"

/* What is next to be sent. */
enum next {
    /* Nothing, until front_keep. */
    NOTHING,
    /* A chunk of a connection. */
    ONE,
    /* The last chunk of its connection, which is closed after it. It may have no bytes. */
    LAST_ONE
};

/* Starts the child, and gives it the secret and the logins. It returns once the front is open, or
   ends the process if a signal comes on `signals` before that. */
void front_open(const struct words *words, const uint8_t secret[SECRET], int signals);

/* A client has connected, and has this number. */
void front_opened(uint32_t connection);

/* These bytes came on the connection. Any bytes may come: those that aren't a request end it. */
void front_came(uint32_t connection, const uint8_t *bytes, size_t size);

/* The connection is closed. Its session lives on until its timeout. */
void front_ended(uint32_t connection);

/* The clock advances by one tick. */
void front_tick(void);

/* Commits the changes of the inputs, as one batch. After it their chunks can be taken. Returns
   whether there were inputs. */
bool front_keep(void);

/* What is next to be sent, and on which connection. */
enum next front_next(uint32_t *connection);

/* Takes that chunk. Returns how many bytes it has. If this is more than `room`, nothing was done:
   call it again with that much room. Otherwise they are in `to`, and the next chunk is next. */
size_t front_take(uint8_t *to, size_t room);

/* Ends the child. */
void front_close(void);

#endif
