/* A child behind two pipes. */
#ifndef CHILD_H
#define CHILD_H

#include <stdbool.h>
#include <sys/types.h>

/* Its name in messages, and the pipes to its standard input and from its standard output. */
struct child {
    const char *name;
    pid_t process;
    int to, from;
};

/* Starts the program that the first of these words names. It is killed when this process dies. */
void child_start(struct child *it, char *const words[]);

/* Starts one beside what this process does: without input, and behind all others where processors
   or memory are short. A read from it doesn't wait. Returns whether it could. */
bool child_beside(struct child *it, char *const words[]);

/* Closes the pipe to it, waits for its end, and returns its status. If a signal ended it, this
   process ends. */
int child_status(struct child *it);

/* Ends the child by a signal, and waits for its end. */
void child_kill(struct child *it);

/* Ends with the status of a child that has ended. The child printed why. */
_Noreturn void end_with(struct child *it);

#endif
