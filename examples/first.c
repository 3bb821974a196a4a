/* The first answer: cc -I out/library -o first examples/first.c out/library/libjellqupas.a */
#include <stdio.h>
#include <stdlib.h>
#include <string.h>
#include "jellqupas.h"

int main(int count, char **words) {
    const char *line = count > 1 ? words[1] : "1 get /";
    char answer[8192] = "";
    jellqupas *service = malloc(jellqupas_size());
    if (!service) return 1;
    uint32_t status = jellqupas_open(3, service);
    if (status == JELLQUPAS_DONE)
        status = jellqupas_call(service, line, strlen(line), answer, sizeof answer);
    fputs(answer, stdout);
    if (status != JELLQUPAS_DONE) fprintf(stderr, "first: %s\n", jellqupas_status_text(status));
    jellqupas_close(service);
    free(service);
    return status != JELLQUPAS_DONE;
}
