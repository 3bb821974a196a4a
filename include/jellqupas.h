/* Jellqupas, a coordination service, in a program of another language.

   A service is all servers of a chain, their master and their clients, in one thread. It plays a
   line, as the program `zk script` does, and answers it. docs/GUIDE.md has the lines and answers.

       char answer[8192] = "";
       jellqupas *service = malloc(jellqupas_size());
       jellqupas_open(3, service);                                    // three servers
       jellqupas_call(service, "1 get /", 7, answer, sizeof answer);  // client 1 reads the root
       fputs(answer, stdout);                                         // ok data - stat 0 0 0 ..
       jellqupas_close(service);
       free(service);

   Link libjellqupas.a, or libjellqupas.so. Both need nothing but the C library. examples/ has
   whole programs.

   The library has five functions: jellqupas_size, _open, _hear, _tell and _close. What each does
   is proved of its code, for every line and every sequence of calls, as long as the caller upholds
   what follows. Nothing can check it. The other three functions are below, in C, and aren't proved:
   jellqupas_call is jellqupas_hear and then jellqupas_tell.

   - Room. A service has jellqupas_size() bytes, aligned as malloc aligns them (to 16). They belong
     to the caller, who doesn't read, write, move or copy them from jellqupas_open to
     jellqupas_close. jellqupas_open is given room without a service in it. The other calls are
     given an open one: jellqupas_open was given it (whatever it returned), and jellqupas_close
     wasn't since.
   - Buffers. A line has `length` bytes, and a buffer `room` bytes. They are initialized, and only
     the call itself changes them during the call. Neither overlaps a service. No pointer is null,
     not even at a length of 0. Lengths are below 2^63.
   - Threads. A service stays on the thread that opened it. Several services may be used at the
     same time, each on its own thread. No call is made in a signal handler, nor in the child of a
     fork of a process with threads.
   - Memory. malloc, realloc and free are one allocator's, and malloc aligns a block to each power
     of two up to 16 that divides its size. A service takes memory in jellqupas_open and
     jellqupas_hear, and frees all of it in jellqupas_close. */

#ifndef JELLQUPAS_H
#define JELLQUPAS_H

#include <stddef.h>
#include <stdint.h>

#ifdef __cplusplus
extern "C" {
#endif

/* The version of this header and of the library that was built with it. No other file has it. */
#define JELLQUPAS_VERSION "0.1.0"

/* A service. It has no fields for a caller: make room for it by jellqupas_size(). */
typedef struct jellqupas jellqupas;

/* What a call came to. */
enum jellqupas_status {
    /* It was done. */
    JELLQUPAS_DONE = 0,
    /* An earlier answer still waits, and nothing was done. Fetch it, and then call again. */
    JELLQUPAS_PENDING = 1,
    /* Out of memory, and nothing is promised of the line. It is so for good: the service has freed
       its servers, every later line comes to this too, and no answer waits. Close it. */
    JELLQUPAS_MEMORY = 2,
    /* The service was opened with a number that isn't 1 to 16. Every line comes to this, and no
       answer waits. Close it, too. */
    JELLQUPAS_NO_SERVERS = 3,
    /* Of jellqupas_call alone: the line was played, and there was no room for its answer. */
    JELLQUPAS_LONGER = 4
};

/* How many bytes a service takes. It is the same at every call. */
size_t jellqupas_size(void);

/* Makes a service with an empty tree, whose chain begins with that many servers, 1 to 16. The
   other servers, up to 16, are spare: a line lets them join.
   JELLQUPAS_DONE: it is open, and no answer waits. JELLQUPAS_MEMORY, JELLQUPAS_NO_SERVERS: as
   above. Whatever it returns, there is a service now, which jellqupas_close closes. */
uint32_t jellqupas_open(uint8_t servers, jellqupas *service);

/* Plays one line, given without its LF. Any bytes are a line: an LF or a NUL in it is a byte like
   others. A line that isn't understood, or has over 524,288 bytes, is answered with `bad line`.
   JELLQUPAS_DONE: it was played, and its answer waits. JELLQUPAS_PENDING, JELLQUPAS_MEMORY,
   JELLQUPAS_NO_SERVERS: as above. The line is read during the call alone. */
uint32_t jellqupas_hear(jellqupas *service, const uint8_t *line, size_t length);

/* Writes the answer to the last line that was played. It is one or more lines of visible ASCII and
   spaces, each with an LF at its end. No NUL follows.
   Returns how many bytes the answer has, or 0 if none waits. THIS MAY BE MORE THAN `room`: then
   nothing was done, and `to` is as it was. Call it again with that much room. If it is at most
   `room`, the answer is in `to` and no longer waits. The bytes of `to` after it are unchanged. */
size_t jellqupas_tell(jellqupas *service, uint8_t *to, size_t room);

/* Ends a service and frees all memory that it took. Its room is left, which is the caller's to
   free, or to open again. An answer that still waits is dropped. */
void jellqupas_close(jellqupas *service);

/* Plays one line, and writes its answer as a string of C: with its LFs, and a NUL at the end. So an
   answer of n bytes needs a room of n + 1. Where `room` isn't 0, `to` is a string after every call,
   and printing it reads nothing else.
   JELLQUPAS_DONE: the line was played, and `to` is its whole answer.
   JELLQUPAS_LONGER: the line was played, and its answer needs more room. `to` is empty, and the
   answer waits: jellqupas_tell(service, (uint8_t *)to, 0) returns its bytes, without the NUL, and
   jellqupas_tell with that much room writes it. Until then each line is JELLQUPAS_PENDING.
   JELLQUPAS_PENDING, JELLQUPAS_MEMORY, JELLQUPAS_NO_SERVERS: as above, and `to` is empty. */
static inline uint32_t jellqupas_call(jellqupas *service, const char *line, size_t length,
                                      char *to, size_t room) {
    size_t count = 0;
    uint32_t status = jellqupas_hear(service, (const uint8_t *)line, length);
    if (status == JELLQUPAS_DONE) {
        count = jellqupas_tell(service, (uint8_t *)to, room ? room - 1 : 0);
        if (count >= room) {
            count = 0;
            status = JELLQUPAS_LONGER;
        }
    }
    if (room) to[count] = 0;
    return status;
}

/* The version of the header that the program was compiled with. */
static inline const char *jellqupas_version(void) { return JELLQUPAS_VERSION; }

/* What a status says, in a few words without an LF. */
static inline const char *jellqupas_status_text(uint32_t status) {
    switch (status) {
    case JELLQUPAS_DONE: return "done";
    case JELLQUPAS_PENDING: return "an earlier answer wasn't fetched yet";
    case JELLQUPAS_MEMORY: return "out of memory";
    case JELLQUPAS_NO_SERVERS: return "a chain begins with 1 to 16 servers";
    case JELLQUPAS_LONGER: return "the answer is longer than the buffer";
    default: return "there is no such status";
    }
}

#ifdef __cplusplus
}
#endif

#endif
