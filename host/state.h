/* A state: made new, or kept in a file as little-endian words. */
#ifndef STATE_H
#define STATE_H

#include <stdbool.h>
#include <sys/stat.h>

#include "log.h"
#include "status.h"

struct state {
    uint64_t *words;
    size_t length;
    size_t room;       /* words that the buffer has room for */
    struct stat about; /* the file that it was read from */
    bool again;        /* it is saved to that file again, unless another has changed it */
};

/* Makes a new state of sizes that are within the limits, with holes that are legal. */
enum status state_make(struct state *state, const struct sizes *sizes);

/* Reads a state into one that is empty. Nothing is asked of it but whole words; the stack for its
 * audit is there. */
enum status state_read(struct state *state, const char *name);

/* What a state that is refused with 3 may be, as far as it can be told; "" if it cannot. */
const char *state_guess(const struct state *state);

/* Reads a state and audits it; sizes are those it names. */
enum status state_load(struct state *state, const char *name, struct sizes *sizes);

/* Writes a state to a file, which is replaced whole. */
enum status state_save(const struct state *state, const char *name);

void state_free(struct state *state);

#endif
