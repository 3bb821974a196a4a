/* The parts of a folder's journal, as files.

   The file `journal` is the last one. A part that begins with `after N`, N in ten digits, and a
   newline continues the part `journal.N`. Else it is whole, and the first one. */
#ifndef PARTS_H
#define PARTS_H

#include <stddef.h>
#include <stdint.h>

enum {
    /* The bytes with which a part says that it continues another one. */
    AFTER = 17,
    /* Room for the name of a part. */
    PART_NAME = 32
};

/* A part: its number, which is 0 of the last one, and its file, or -1. */
struct part {
    uint64_t number;
    int file;
};

/* The name of the part with this number, in its folder. */
void part_name(char name[PART_NAME], uint64_t number);

/* Opens a part of a folder's journal. Its file is -1 if it can't be opened. */
struct part part_opened(const char *folder, uint64_t number);

/* The number of the part that this one continues, or 0 if it is whole or not there. */
uint64_t part_before(struct part it);

#endif
