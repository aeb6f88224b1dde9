/* A bar on standard error for long logs. */
#ifndef PROGRESS_H
#define PROGRESS_H

#include <stdbool.h>
#include <stdint.h>
#include <time.h>

struct progress {
    bool wanted;    /* someone looks at standard error, and no answers run there */
    uint64_t total; /* bytes of the log; 0 is unknown */
    struct timespec next;
};

void progress_begin(struct progress *progress, int log, bool answers);

/* Draws the bar if the log takes more than a second, ten times a second at most. */
void progress_step(struct progress *progress, uint64_t bytes, uint64_t requests);

/* Wipes the bar if one stands there. */
void progress_wipe(void);

#endif
