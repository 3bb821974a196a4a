/* A child behind two pipes. */
#define _GNU_SOURCE
#include <errno.h>
#include <fcntl.h>
#include <signal.h>
#include <stdio.h>
#include <stdlib.h>
#include <string.h>
#include <sys/prctl.h>
#include <sys/resource.h>
#include <sys/wait.h>
#include <unistd.h>
#include "child.h"
#include "start.h"

/* Becomes the child. */
static _Noreturn void become(int in, int out, char *const words[], pid_t parent) {
    prctl(PR_SET_PDEATHSIG, SIGKILL);
    if (getppid() != parent) _exit(1);
    dup2(in, STDIN_FILENO);
    dup2(out, STDOUT_FILENO);
    execv(words[0], words);
    fprintf(stderr, "zk: %s: %s\n", words[0], strerror(errno));
    _exit(3);
}

void child_start(struct child *it, char *const words[]) {
    int in[2], out[2];
    if (pipe2(in, O_CLOEXEC) || pipe2(out, O_CLOEXEC)) stop(3, "no pipes: %s", strerror(errno));
    pid_t parent = getpid();
    it->process = fork();
    if (it->process < 0) stop(3, "no process: %s", strerror(errno));
    if (!it->process) become(in[0], out[1], words, parent);
    close(in[0]), close(out[1]);
    it->to = in[1], it->from = out[0];
}

/* Lets others come first, and end last. */
static void give_way(void) {
    int file = open("/proc/self/oom_score_adj", O_WRONLY | O_CLOEXEC);
    bool is_put = file >= 0 && write(file, "1000", 4) == 4;
    /* (where that can't be done, it is as likely to be ended as others) */
    (void)is_put;
    setpriority(PRIO_PROCESS, 0, 10);
}

bool child_beside(struct child *it, char *const words[]) {
    int out[2], none = open("/dev/null", O_RDONLY | O_CLOEXEC);
    if (none < 0) return false;
    if (pipe2(out, O_CLOEXEC)) return close(none), false;
    pid_t parent = getpid();
    it->process = fork();
    if (!it->process) {
        give_way();
        become(none, out[1], words, parent);
    }
    it->to = -1, it->from = out[0];
    fcntl(it->from, F_SETFL, O_NONBLOCK);
    close(none), close(out[1]);
    if (it->process < 0) close(it->from);
    return it->process > 0;
}

int child_status(struct child *it) {
    int status;
    close(it->to);
    while (waitpid(it->process, &status, 0) < 0) {
        if (errno != EINTR) return 1;
    }
    if (WIFEXITED(status)) return WEXITSTATUS(status);
    stop(1, "%s was ended by signal %d", it->name, WTERMSIG(status));
}

void child_kill(struct child *it) {
    kill(it->process, SIGKILL);
    while (waitpid(it->process, NULL, 0) < 0 && errno == EINTR) continue;
}

_Noreturn void end_with(struct child *it) {
    int status = child_status(it);
    if (!status) stop(1, "%s has ended", it->name);
    exit(status);
}
