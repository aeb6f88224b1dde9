/*
 * Every list of at most four words as the holes of a board of four frames: a state is made or
 * refused as the header says, a refusal writes nothing, and each frame is legal or not. Then the
 * most holes, and one more.
 */
#include <inttypes.h>
#include <stdbool.h>
#include <stdio.h>
#include <string.h>

#include "ivleague.h"

enum {
    FRAMES = 4,
    STATE_WORDS = 25 + 6 + 517 + FRAMES,
    MOST_WORDS = IVLEAGUE_MOST_HOLES * IVLEAGUE_HOLE_WORDS,
    REQUESTS = 1 + FRAMES,
    VALUES = 7
};

/* What a hole's words may be: any frame, the two numbers after them, and the last of all. */
static const uint64_t values[VALUES] = {0, 1, 2, 3, 4, 5, UINT64_MAX};

/* Whether these are holes: pairs in order that do not overlap, not empty, within the frames. */
static bool allowed(const uint64_t *holes, size_t words, uint64_t frames)
{
    uint64_t end = 0; /* of the holes before */
    if (words % IVLEAGUE_HOLE_WORDS != 0 || words > MOST_WORDS)
        return false;
    for (size_t i = 0; i < words; i += IVLEAGUE_HOLE_WORDS) {
        uint64_t first = holes[i], length = holes[i + 1];
        if (first < end || first >= frames || length == 0 || length > frames - first)
            return false;
        end = first + length;
    }
    return true;
}

static bool in_hole(const uint64_t *holes, size_t words, uint64_t frame)
{
    for (size_t i = 0; i < words; i += IVLEAGUE_HOLE_WORDS)
        if (frame >= holes[i] && frame - holes[i] < holes[i + 1])
            return true;
    return false;
}

/* Whether a refusal gives this number and writes nothing. */
static bool refuses(const uint64_t *holes, size_t words, size_t state_words, uint64_t number)
{
    uint64_t state[STATE_WORDS];
    memset(state, 0xa5, sizeof state);
    bool refused = ivleague_make(1, 1, FRAMES, holes, words, state, state_words) == number;
    for (size_t i = 0; i < STATE_WORDS; i++)
        refused = refused && state[i] == 0xa5a5a5a5a5a5a5a5;
    return refused;
}

/* Whether a state just made has these holes, and zeros after its contents. */
static bool is_new(const uint64_t *state, const uint64_t *holes, size_t words)
{
    uint64_t expected[STATE_WORDS] = {1, 1, FRAMES, 0, 25, 31, 36, 548, words / 2};
    memcpy(expected + IVLEAGUE_HOLE_PAIRS, holes, words * sizeof *holes);
    return memcmp(state, expected, sizeof expected) == 0;
}

/* Whether a map of each frame is answered 16 in a hole and is done elsewhere. */
static bool serves(uint64_t *state, const uint64_t *holes, size_t words)
{
    uint64_t requests[REQUESTS][IVLEAGUE_REQUEST_WORDS] = {{IVLEAGUE_OPEN}};
    uint64_t answers[REQUESTS][IVLEAGUE_ANSWER_WORDS];
    for (uint64_t frame = 0; frame < FRAMES; frame++) {
        requests[1 + frame][IVLEAGUE_REQUEST_CALL] = IVLEAGUE_MAP;
        requests[1 + frame][IVLEAGUE_REQUEST_FRAME] = frame;
    }
    bool good = ivleague_serve(state, STATE_WORDS, *requests, sizeof requests / sizeof **requests,
                               *answers, sizeof answers / sizeof **answers) == IVLEAGUE_DONE;
    for (uint64_t frame = 0; good && frame < FRAMES; frame++)
        good = answers[1 + frame][IVLEAGUE_ANSWER_NUMBER] ==
               (in_hole(holes, words, frame) ? IVLEAGUE_REFUSED_HOLE : IVLEAGUE_DONE);
    return good;
}

/* Whether these words are taken as holes, or not, as they should be. */
static bool right(const uint64_t *holes, size_t words)
{
    uint64_t state[STATE_WORDS];
    bool good = allowed(holes, words, FRAMES);
    uint64_t other_length = good ? IVLEAGUE_REFUSED_LENGTH : IVLEAGUE_REFUSED_SIZES;
    if (!refuses(holes, words, STATE_WORDS - 1, other_length))
        return false;
    if (!good)
        return refuses(holes, words, STATE_WORDS, IVLEAGUE_REFUSED_SIZES);
    return ivleague_make(1, 1, FRAMES, holes, words, state, STATE_WORDS) == IVLEAGUE_DONE &&
           is_new(state, holes, words) && serves(state, holes, words);
}

/* The same of every list of so many words. */
static bool all_right(size_t words)
{
    uint64_t holes[4] = {0};
    size_t lists = 1;
    for (size_t i = 0; i < words; i++)
        lists *= VALUES;
    for (size_t list = 0; list < lists; list++) {
        size_t rest = list;
        for (size_t i = 0; i < words; i++, rest /= VALUES)
            holes[i] = values[rest % VALUES];
        if (!right(holes, words))
            return false;
    }
    return true;
}

/* Whether a board takes as many holes as it may have, and none more. */
static bool most_right(void)
{
    enum { BOARD = 2 * IVLEAGUE_MOST_HOLES + 2, WORDS = STATE_WORDS - FRAMES + BOARD };
    uint64_t holes[BOARD], state[WORDS];
    for (uint64_t i = 0; i < BOARD; i += IVLEAGUE_HOLE_WORDS) {
        holes[i] = i;
        holes[i + 1] = 1;
    }
    for (size_t words = BOARD; words > 0; words--) {
        bool good = allowed(holes, words, BOARD);
        if (ivleague_make(1, 1, BOARD, holes, words, state, WORDS) !=
            (good ? IVLEAGUE_DONE : IVLEAGUE_REFUSED_SIZES))
            return false;
    }
    return true;
}

int main(void)
{
    for (size_t words = 0; words <= 4; words++)
        if (!all_right(words)) {
            fprintf(stderr, "holes: a list of %zu words is not as it should be\n", words);
            return 1;
        }
    if (!most_right()) {
        fputs("holes: not as many as there may be\n", stderr);
        return 1;
    }
    puts("holes: each list is taken or refused as it should be");
    return 0;
}
