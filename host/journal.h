/* The journal of the folder, as files: how long it is, and its compaction.

   Once its journal has grown, the program that serves begins a new part of it (parts.h). Then a
   child compacts the parts before, beside the server, by the task `beginning`. */
#ifndef JOURNAL_H
#define JOURNAL_H

#include <stdint.h>
#include "start.h"

/* From now on the journal of the folder that these words name is looked at, if they name one. */
void journal_open(const struct words *words);

/* Its bytes, and those that the last compaction left; 0 if there is none. */
uint64_t journal_bytes(void);
uint64_t journal_compacted(void);

/* Begins a compaction if a new part was begun, and none runs; prints a line for one that has ended.
   It never waits. */
void journal_look(void);

#endif
