/* Counts of requests and answers, and a look at the state. */
#ifndef SUMMARY_H
#define SUMMARY_H

#include <stdbool.h>
#include <stdint.h>

#include "ivleague.h"
#include "log.h"

struct summary {
    uint64_t batches;
    uint64_t requests;
    uint64_t by_call[IVLEAGUE_CALLS + 1]; /* the last is of all that are no calls */
    uint64_t by_number[IVLEAGUE_NUMBERS];
};

/* What a sound state has in use. */
struct use {
    uint64_t domains, treelings, pages;
};

/* Counts a batch that was served, and where it is asked for each call and number of it. */
void summary_add(struct summary *summary, const struct batch *batch, bool each);

struct use state_use(const uint64_t *state);

#endif
