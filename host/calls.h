/* Which numbers are calls. */
#ifndef CALLS_H
#define CALLS_H

#include <stdbool.h>
#include <string.h>

#include "ivleague.h"

/* Whether a number has a call's name; 0 never has. */
static inline bool is_call(uint64_t number)
{
    return strcmp(ivleague_call_name(number), ivleague_call_name(0)) != 0;
}

#endif
