/*
 * Every small request list, taken by its number and served from a new state: its answer numbers on
 * a line, as the program small_lists prints them. Before that, what is refused writes nothing.
 */
#include <inttypes.h>
#include <stdbool.h>
#include <stdio.h>

#include "ivleague.h"

enum {
    REQUEST_WORDS = IVLEAGUE_SMALL_REQUESTS * IVLEAGUE_REQUEST_WORDS,
    ANSWER_WORDS = IVLEAGUE_SMALL_REQUESTS * IVLEAGUE_ANSWER_WORDS,
    STATE_WORDS = 556
};

/* Whether a list is refused and every word stays. */
static bool refused(uint64_t number, size_t request_words)
{
    uint64_t requests[REQUEST_WORDS];
    for (size_t i = 0; i < REQUEST_WORDS; i++)
        requests[i] = UINT64_MAX - i;
    bool same = ivleague_small_list(number, requests, request_words) == IVLEAGUE_SMALL_NONE;
    for (size_t i = 0; i < REQUEST_WORDS; i++)
        same = same && requests[i] == UINT64_MAX - i;
    return same;
}

/* Whether the list was served; its numbers are printed. */
static bool served(uint64_t number)
{
    static const uint64_t no_holes[IVLEAGUE_HOLE_WORDS];
    uint64_t state[STATE_WORDS], requests[REQUEST_WORDS], answers[ANSWER_WORDS];
    uint64_t count = ivleague_small_list(number, requests, REQUEST_WORDS);
    if (count > IVLEAGUE_SMALL_REQUESTS)
        return false;
    if (ivleague_make(IVLEAGUE_SMALL_TREELINGS, IVLEAGUE_SMALL_DOMAINS, IVLEAGUE_SMALL_FRAMES,
                      no_holes, 0, state, STATE_WORDS) != IVLEAGUE_DONE)
        return false;
    if (ivleague_serve(state, STATE_WORDS, requests, (size_t)count * IVLEAGUE_REQUEST_WORDS,
                       answers, (size_t)count * IVLEAGUE_ANSWER_WORDS) != IVLEAGUE_DONE)
        return false;
    for (uint64_t i = 0; i < count; i++)
        printf(i ? " %" PRIu64 : "%" PRIu64, answers[i * IVLEAGUE_ANSWER_WORDS]);
    putchar('\n');
    return true;
}

static int failed(const char *what)
{
    fprintf(stderr, "small: %s\n", what);
    return 1;
}

int main(void)
{
    if (!refused(IVLEAGUE_SMALL_LISTS, REQUEST_WORDS) || !refused(UINT64_MAX, REQUEST_WORDS) ||
        !refused(1, 3) || !refused(17, 7) || !refused(IVLEAGUE_SMALL_LISTS - 1, 11))
        return failed("not refused, or words were written");
    for (uint64_t number = 0; number < IVLEAGUE_SMALL_LISTS; number++)
        if (!served(number))
            return failed("a list was not served");
    return 0;
}
