/* The logins of `--auth FILE`: who may make calls. */
#ifndef LOGINS_H
#define LOGINS_H

#include <stddef.h>
#include <stdint.h>

/* The text of the file. It ends the process if the file isn't its owner's alone: who reads its
   hashes can try them against lists of passwords. The child reads the lines. */
uint8_t *logins_in(const char *file, size_t *count);

#endif
