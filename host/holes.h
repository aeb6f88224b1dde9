/* The holes of a board, for people numbered from 1. */
#ifndef HOLES_H
#define HOLES_H

#include <stddef.h>
#include <stdint.h>

#include "ivleague.h"

struct holes {
    uint64_t words[IVLEAGUE_MOST_HOLES * IVLEAGUE_HOLE_WORDS]; /* those past the count are 0 */
    size_t count;
};

/* A hole's frames in words. */
struct hole_text {
    char text[56];
};

/* The words of a hole, by its place from 0. */
static inline const uint64_t *hole_at(const struct holes *holes, size_t place)
{
    return holes->words + IVLEAGUE_HOLE_WORDS * place;
}

/* The holes of a state whose contents are right. */
struct holes holes_of(const uint64_t *state);

/* "frames 30 to 44" or "frame 7", within any board's; "none" if the length is 0. */
struct hole_text hole_show(const uint64_t *hole);

#endif
