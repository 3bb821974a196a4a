/* The parts of a folder's journal, as files (parts.h). */
#define _GNU_SOURCE
#include <fcntl.h>
#include <inttypes.h>
#include <limits.h>
#include <stdbool.h>
#include <stdio.h>
#include <stdlib.h>
#include <string.h>
#include <unistd.h>
#include "parts.h"

/* What comes before the number of the part that one continues. */
static const char CONTINUES[] = "after ";
enum { WORD = sizeof CONTINUES - 1 };

void part_name(char name[PART_NAME], uint64_t number) {
    if (number) snprintf(name, PART_NAME, "journal.%" PRIu64, number);
    else strcpy(name, "journal");
}

struct part part_opened(const char *folder, uint64_t number) {
    char name[PART_NAME], path[PATH_MAX + PART_NAME];
    part_name(name, number);
    snprintf(path, sizeof path, "%s/%s", folder, name);
    return (struct part){.number = number, .file = open(path, O_RDONLY | O_CLOEXEC)};
}

/* (numbers fall from each part to the one before it, so that a chain has an end) */
uint64_t part_before(struct part it) {
    char head[AFTER + 1] = "";
    if (it.file < 0 || pread(it.file, head, AFTER, 0) != AFTER) return 0;
    size_t digits = strspn(head + WORD, "0123456789");
    bool continues = !memcmp(head, CONTINUES, WORD) && WORD + digits == AFTER - 1 &&
                     head[AFTER - 1] == '\n';
    uint64_t number = continues ? strtoull(head + WORD, NULL, 10) : 0;
    return !it.number || number < it.number ? number : 0;
}
