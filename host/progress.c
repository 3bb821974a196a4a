/* How long a task takes, in lines on standard error, by a process beside it. */
#define _GNU_SOURCE
#include <signal.h>
#include <stdio.h>
#include <sys/prctl.h>
#include <unistd.h>
#include "notes.h"
#include "start.h"

/* (the kernel ends that process when this one ends. So it has none of its pipes but standard error,
   and where no process can be made no line is printed.) */
void tell_time(const char *task) {
    pid_t parent = getpid();
    if (fork()) return;
    prctl(PR_SET_PDEATHSIG, SIGKILL);
    close(STDIN_FILENO), close(STDOUT_FILENO);
    for (unsigned took = 0, next = LONG / 1000; getppid() == parent; next *= 2) {
        while (took < next && getppid() == parent) sleep(1), took++;
        fprintf(stderr, "zk: %s: %u s so far\n", task, took);
    }
    _exit(0);
}
