/* Tests of the archive, built with the address sanitizer and -Wl,--wrap=malloc,--wrap=realloc. A
   story is played as often as it takes memory, each time with another allocation refused. Each
   answer is asked for with buffers of each size. The status is 1 where something is wrong. */
#include <stdio.h>
#include <stdlib.h>
#include <string.h>
#include "jellqupas.h"

/* How many more times memory is found, before it is refused once; below 0, always. */
static long left = -1;
static int refused, failures;

void *__real_malloc(size_t size);
void *__real_realloc(void *block, size_t size);

static int is_found(void) {
    if (left < 0 || left-- > 0) return 1;
    return refused = 1, 0;
}

void *__wrap_malloc(size_t size) { return is_found() ? __real_malloc(size) : NULL; }
void *__wrap_realloc(void *block, size_t size) {
    return is_found() ? __real_realloc(block, size) : NULL;
}

static void want(int holds, const char *what, long number) {
    if (!holds) failures++, printf("FAILED %s (%ld)\n", what, number);
}

static const char *STORY[] = {
    "1 create /a p aGk=", "1 open 5", "1 create /a/b es:2 -",
    "1 multi set /a 0 eW8= ; create /a/c p - ; check /a 1", "1 ls /a", "2 begin create /d p -",
    "take c2 s1", "fail s2", "settle", "join s4", "settle", "1 get /a", "0 tick", "1 close 2",
};
enum { LINES = sizeof STORY / sizeof *STORY };

static uint32_t hear(jellqupas *service, const char *line) {
    return jellqupas_hear(service, (const uint8_t *)line, strlen(line));
}

/* Takes an answer into memory of exactly its size, after each smaller size. */
static size_t take_answer(jellqupas *service) {
    uint8_t none[1];
    size_t count = jellqupas_tell(service, none, 0);
    for (size_t size = 1; size < count; size++) {
        uint8_t *small = __real_malloc(size);
        memset(small, 0xA5, size);
        want(jellqupas_tell(service, small, size) == count, "a small buffer has the count", size);
        for (size_t at = 0; at < size; at++) want(small[at] == 0xA5, "it is as it was", size);
        want(hear(service, "1 ls /") == JELLQUPAS_PENDING, "no line is heard", size);
        free(small);
    }
    uint8_t *text = __real_malloc(count);
    want(jellqupas_tell(service, text, count) == count, "the answer is given", count);
    want(!count || text[count - 1] == '\n', "it ends in an LF", count);
    want(!jellqupas_tell(service, text, count), "it is given once", count);
    free(text);
    return count;
}

/* Plays the story, in which memory is refused once it was found so many times (below 0: never).
   Returns whether it was. */
static int play(jellqupas *service, long found) {
    refused = 0, left = found;
    uint32_t status = jellqupas_open(3, service);
    for (int line = 0; line < LINES; line++) {
        uint32_t before = status;
        status = hear(service, STORY[line]);
        want(!status || (refused && status == JELLQUPAS_MEMORY), "heard, or out of memory", line);
        want(!before || status == before, "out of memory is for good", line);
        want(!status == !!take_answer(service), "a line that is heard has an answer", line);
    }
    jellqupas_close(service);
    left = -1;
    return refused;
}

int main(void) {
    long stories = 0;
    jellqupas *service = __real_malloc(jellqupas_size());
    play(service, -1);
    while (play(service, stories)) stories++;
    for (int servers = 0; servers < 256; servers += 17) {
        want(jellqupas_open(servers, service) == JELLQUPAS_NO_SERVERS, "no servers", servers);
        jellqupas_close(service);
    }
    free(service);
    printf("%ld refusals\n", stories);
    return failures > 0;
}
