/* Buffers of length 0 that are NULL, wherever a length may be 0. */
#include <inttypes.h>
#include <ivleague.h>
#include <stdio.h>
#include <stdlib.h>

enum { TREELINGS = 2, DOMAINS = 2, FRAMES = 9 };

static uint64_t state[25 + 6 * DOMAINS + 517 * TREELINGS + FRAMES];
static const size_t length = sizeof state / sizeof *state;

static void expect(const char *what, uint64_t number, uint64_t expected)
{
    if (number == expected)
        return;
    fprintf(stderr, "empty: %s: %" PRIu64 ", not %" PRIu64 "\n", what, number, expected);
    exit(1);
}

int main(void)
{
    uint64_t request[] = {IVLEAGUE_OPEN, 0, 0, 0}, answer[IVLEAGUE_ANSWER_WORDS];
    expect("no state", ivleague_make(TREELINGS, DOMAINS, FRAMES, NULL, 0, NULL, 0),
           IVLEAGUE_REFUSED_LENGTH);
    expect("no sizes", ivleague_make(0, 0, 0, NULL, 0, NULL, 0), IVLEAGUE_REFUSED_SIZES);
    expect("no holes", ivleague_make(TREELINGS, DOMAINS, FRAMES, NULL, 0, state, length),
           IVLEAGUE_DONE);
    expect("an audit of none", ivleague_audit(NULL, 0), IVLEAGUE_REFUSED_CONTENTS);
    expect("a batch of none", ivleague_serve(NULL, 0, NULL, 0, NULL, 0), IVLEAGUE_REFUSED_CONTENTS);
    expect("a request of none", ivleague_serve(NULL, 0, request, 4, answer, 8),
           IVLEAGUE_REFUSED_CONTENTS);
    expect("no requests", ivleague_serve(state, length, NULL, 0, NULL, 0), IVLEAGUE_DONE);
    expect("no answers", ivleague_serve(state, length, request, 4, NULL, 0),
           IVLEAGUE_REFUSED_ANSWERS);
    expect("answers alone", ivleague_serve(state, length, NULL, 0, answer, 8),
           IVLEAGUE_REFUSED_ANSWERS);
    expect("a request", ivleague_serve(state, length, request, 4, answer, 8), IVLEAGUE_DONE);
    expect("the empty list", ivleague_small_list(0, NULL, 0), 0);
    for (uint64_t number = 1; number <= IVLEAGUE_SMALL_LISTS; number++)
        expect("a list without room", ivleague_small_list(number, NULL, 0), IVLEAGUE_SMALL_NONE);
    puts("buffers of length 0 may be NULL");
    return 0;
}
