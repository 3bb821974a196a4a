/* What the server counts, in Prometheus' text form: GET /metrics. */
#ifndef METRICS_H
#define METRICS_H

#include <stdbool.h>
#include <stdint.h>
#include "start.h"

enum {
    /* The requests for metrics that are answered at once. */
    READERS = 4,
    /* From here on events are of the listener, of each reader, and of the front's reply to each. */
    METRICS = 1 << 20
};

/* Listens at the address of these words. */
void metrics_open(const struct words *words);

/* Whether this event is one of metrics; then it is handled. */
bool is_of_metrics(uint32_t number);

/* Closes readers whose patience has ended. */
void metrics_look(void);

#endif
