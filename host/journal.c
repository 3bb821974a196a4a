/* The journal of the folder, as files, and its compaction (journal.h). The program that serves
   writes the last part, and the child replaces those before. */
#define _GNU_SOURCE
#include <errno.h>
#include <limits.h>
#include <stdbool.h>
#include <stdio.h>
#include <stdlib.h>
#include <string.h>
#include <sys/stat.h>
#include <sys/wait.h>
#include <unistd.h>
#include "child.h"
#include "journal.h"
#include "notes.h"
#include "parts.h"

/* The folder, or NULL if all is in memory, and the path of its last part. */
static const char *folder;
static char path[PATH_MAX + PART_NAME];
/* The words that compact the parts before the last one. */
static char servers[24], *task[] = {NULL, NULL, "beginning", servers, NULL};
/* The last part before which all is compacted, or was tried to be. */
static ino_t last;
/* The child that compacts, if its process isn't 0, and when it began. */
static struct child child;
static uint64_t began;
/* The bytes after the last compaction. */
static uint64_t compacted;

/* Ends a compaction with this process: so the folder isn't locked once this one has ended. */
static void end_child(void) {
    if (child.process) child_kill(&child);
}

void journal_open(const struct words *words) {
    struct stat found;
    if (!words->data) return;
    folder = strcmp(words->data, "-") ? words->data : "./-";
    snprintf(path, sizeof path, "%s/journal", folder);
    snprintf(servers, sizeof servers, "%d", words->servers);
    task[0] = (char *)words->program, task[1] = (char *)folder;
    if (!stat(path, &found)) last = found.st_ino;
    atexit(end_child);
}

uint64_t journal_bytes(void) {
    uint64_t bytes = 0, number = 0;
    struct stat found;
    if (!folder) return 0;
    do {
        struct part it = part_opened(folder, number);
        if (it.file >= 0 && !fstat(it.file, &found)) bytes += (uint64_t)found.st_size;
        number = part_before(it);
        if (it.file >= 0) close(it.file);
    } while (number);
    return bytes;
}

uint64_t journal_compacted(void) { return compacted; }

/* Why there was no compaction: in a word, and by a number. */
static const char NOT[] = "the journal isn't compacted: %s %d";

/* Tells of a compaction that ended with this status. One that had nothing to do says nothing. */
static void tell(int status) {
    char text[80] = "";
    unsigned long long after, before;
    ssize_t count = read(child.from, text, sizeof text - 1);
    close(child.from);
    if (WIFSIGNALED(status)) note(UNCOMPACTED, NOT, "signal", WTERMSIG(status));
    else if (status) note(UNCOMPACTED, NOT, "status", WEXITSTATUS(status));
    else if (count > 0 && sscanf(text, "%llu bytes, before %llu", &after, &before) == 2) {
        compacted = after;
        note(COMPACTED, "the journal was compacted: %llu bytes before, %llu after, %.1f s", before,
             after, (double)(now_us() - began) / 1e6);
    }
}

/* Whether a compaction runs. */
static bool is_compacting(void) {
    int status = 0;
    if (!child.process || !waitpid(child.process, &status, WNOHANG)) return child.process != 0;
    child.process = 0;
    tell(status);
    return false;
}

void journal_look(void) {
    struct stat found;
    if (!folder || is_compacting() || stat(path, &found) || found.st_ino == last) return;
    last = found.st_ino, began = now_us();
    if (child_beside(&child, task)) return;
    child.process = 0;
    note(UNCOMPACTED, NOT, strerror(errno), errno);
}
