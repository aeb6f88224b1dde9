/*
 * Faults put into the library on purpose, by the environment's FAULT, for tests/soak: the proved
 * functions have the names below there, and these stand before them.
 */
#include <stdbool.h>
#include <stdlib.h>
#include <string.h>

#include "ivleague.h"

uint64_t proved_audit(const uint64_t *state, size_t state_words);
uint64_t proved_serve(uint64_t *state, size_t state_words, const uint64_t *requests,
                      size_t request_words, uint64_t *answers, size_t answer_words);

static bool fault(const char *name)
{
    const char *wanted = getenv("FAULT");
    return wanted && strcmp(wanted, name) == 0;
}

/* Passes a state that is not sound. */
uint64_t ivleague_audit(const uint64_t *state, size_t state_words)
{
    uint64_t number = proved_audit(state, state_words);
    return fault("audit") && number == IVLEAGUE_REFUSED_AUDIT ? IVLEAGUE_DONE : number;
}

/* A path to the last position of a leaf node names the one before. */
static void change_answers(const uint64_t *requests, size_t count, uint64_t *answers)
{
    for (size_t i = 0; i < count; i++) {
        uint64_t *answer = answers + IVLEAGUE_ANSWER_WORDS * i;
        if (requests[IVLEAGUE_REQUEST_WORDS * i] == IVLEAGUE_PATH &&
            answer[IVLEAGUE_ANSWER_POSITION] == 7)
            answer[IVLEAGUE_ANSWER_POSITION] = 6;
    }
}

uint64_t ivleague_serve(uint64_t *state, size_t state_words, const uint64_t *requests,
                        size_t request_words, uint64_t *answers, size_t answer_words)
{
    uint64_t number =
        proved_serve(state, state_words, requests, request_words, answers, answer_words);
    if (fault("number") && number == IVLEAGUE_REFUSED_ANSWERS)
        return IVLEAGUE_REFUSED_REQUESTS;
    if (number != IVLEAGUE_DONE)
        return number;
    if (fault("answer"))
        change_answers(requests, request_words / IVLEAGUE_REQUEST_WORDS, answers);
    /* The hand stays where it was before a TreeLing was taken. */
    if (fault("word") && state[IVLEAGUE_HAND] == 1)
        state[IVLEAGUE_HAND] = 0;
    return number;
}
