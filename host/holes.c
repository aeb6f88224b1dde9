#include "holes.h"

#include <inttypes.h>
#include <stdio.h>
#include <string.h>

struct holes holes_of(const uint64_t *state)
{
    struct holes holes = {.count = (size_t)state[IVLEAGUE_HOLES]};
    memcpy(holes.words, state + IVLEAGUE_HOLE_PAIRS, sizeof holes.words);
    return holes;
}

struct hole_text hole_show(const uint64_t *hole)
{
    struct hole_text shown = {"none"};
    uint64_t first = hole[IVLEAGUE_HOLE_FIRST], length = hole[IVLEAGUE_HOLE_LENGTH];
    if (length == 1)
        snprintf(shown.text, sizeof shown.text, "frame %" PRIu64, first);
    else if (length > 1)
        snprintf(shown.text, sizeof shown.text, "frames %" PRIu64 " to %" PRIu64, first,
                 first + length - 1);
    return shown;
}
