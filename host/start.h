/* What comes before a server serves. Each function ends the process if it fails. */
#ifndef START_H
#define START_H

#include <netinet/in.h>
#include <stdbool.h>
#include <stdint.h>

/* The bytes of the secret from which passwords of sessions are derived. */
enum { SECRET = 32 };

/* Prints one line on standard error, and ends with this status. */
_Noreturn void stop(int status, const char *format, ...);

/* Milliseconds, and microseconds, of a clock that no one can set. */
uint64_t now(void);
uint64_t now_us(void);

/* Milliseconds since 1970, by the clock on the wall. */
uint64_t date(void);

/* The number from `least` to `most` that this text is, or -1. */
long number_in(const char *text, long least, long most);

union address {
    struct sockaddr any;
    struct sockaddr_in four;
    struct sockaddr_in6 six;
};

/* Reads ADDRESS:PORT. Returns its size, or 0 if it isn't one. */
socklen_t read_address(const char *text, union address *to);

/* What the words ask for. `program` is the one that serves. `data` is its folder, or NULL,
   and `servers` the number in its journal's head. `metrics` is where its counts can be read, or
   NULL. `auth` is the file of logins, or NULL: then clients need none. `connections` are served at
   once; 0 is as many as it can. There are at most so many `watches`, and so many of `each`
   connection. The tree has at most so many `nodes` and `sessions`, a session's timeout at most
   `longest` ticks, a node's data so many `bytes`, and a multi so many `parts`. `is_open` allows addresses that others reach. `task` is what is done with the folder
   in the place of serving, or NULL. */
struct words {
    const char *listen, *metrics, *auth, *data, *sync, *program, *task;
    long tick, journal, connections, watches, each, nodes, sessions, longest, bytes, parts;
    int servers;
    bool is_open;
};

/* Reads the words after the program's name. For `--help` and the like it prints, and ends. */
struct words understood(char **words);

/* Takes the secret of a folder, which is drawn and stored there if it has none. Draws one for this
   process alone if `folder` is NULL. */
void take_secret(const char *folder, uint8_t secret[SECRET]);

/* The number in the head of a folder's journal, or 1 if there is none. */
int servers_of(const char *folder);

/* A folder with a copy of the journal as it is now, if a server uses this folder, or NULL. */
const char *copied(const char *folder);

/* Runs a program that reads the copy, removes the copy, and ends with the program's status. */
_Noreturn void end_after(char *const words[]);

/* Prints how long a task takes, from some seconds on, until this process ends. */
void tell_time(const char *task);

/* A socket that listens at ADDRESS:PORT, and the port. */
int listening_at(const char *text, unsigned *port);

/* Whether only this machine reaches the address. */
bool is_loopback(const char *text);

/* A descriptor on which SIGINT and SIGTERM come, or -1. */
int ending_signals(void);

/* Opens closed standard descriptors, asks for this many descriptors, and ignores SIGPIPE. Returns
   how many it may open. */
long make_ready(unsigned descriptors);

#endif
