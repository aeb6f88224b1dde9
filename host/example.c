/*
 * A whole host, in C or in C++: makes a state, serves one batch and prints each answer by name.
 * README, "Link it", has the command lines.
 */
#include <inttypes.h>
#include <ivleague.h>
#include <stdio.h>
#include <stdlib.h>
#include <sys/resource.h>

/* First frame, length. */
static const uint64_t holes[][IVLEAGUE_HOLE_WORDS] = {
    {16, 8}, /* frames 16 to 23 are a device's */
};

/* Call, domain, frame, count. */
static const uint64_t requests[][IVLEAGUE_REQUEST_WORDS] = {
    {IVLEAGUE_OPEN, 0, 0, 0},     /* domain 0 */
    {IVLEAGUE_MAP_RUN, 0, 0, 10}, /* frames 0 to 9 */
    {IVLEAGUE_PATH, 0, 9, 0},     /* where frame 9 lies */
    {IVLEAGUE_MAP, 1, 9, 0},      /* refused: domain 1 is not open */
    {IVLEAGUE_MAP, 0, 16, 0},     /* refused: the frame lies in the hole */
    {IVLEAGUE_CLOSE, 0, 0, 0},    /* gives the ten pages back */
};

enum { TREELINGS = 4, DOMAINS = 2, FRAMES = 64, REQUESTS = sizeof requests / sizeof *requests };
static uint64_t answers[REQUESTS][IVLEAGUE_ANSWER_WORDS];

/* Whether the stack has room for a batch, and for the host itself. */
static int stack_suffices(void)
{
    struct rlimit limit;
    size_t bytes = ivleague_stack_bytes(TREELINGS, DOMAINS) + (size_t)64 * 1024;
    return getrlimit(RLIMIT_STACK, &limit) == 0 && limit.rlim_cur >= bytes;
}

static void print(const uint64_t *request, const uint64_t *answer)
{
    printf("%s: %s, leaf node %" PRIu64 ", position %" PRIu64 ", pages %" PRIu64 "\n",
           ivleague_call_name(request[IVLEAGUE_REQUEST_CALL]),
           ivleague_number_name(answer[IVLEAGUE_ANSWER_NUMBER]), answer[IVLEAGUE_ANSWER_LEVEL_4],
           answer[IVLEAGUE_ANSWER_POSITION], answer[IVLEAGUE_ANSWER_PAGES]);
}

int main(void)
{
    size_t words = (size_t)ivleague_state_words(TREELINGS, DOMAINS, FRAMES);
    uint64_t *state = (uint64_t *)calloc(words, sizeof *state);
    if (!state || !stack_suffices())
        return 2;
    uint64_t number = ivleague_make(TREELINGS, DOMAINS, FRAMES, *holes,
                                    sizeof holes / sizeof **holes, state, words);
    if (number == IVLEAGUE_DONE)
        number = ivleague_serve(state, words, *requests, sizeof requests / sizeof **requests,
                                *answers, sizeof answers / sizeof **answers);
    printf("ivleague %s, batch: %s\n", ivleague_version(), ivleague_number_name(number));
    for (size_t i = 0; i < REQUESTS && number == IVLEAGUE_DONE; i++)
        print(requests[i], answers[i]);
    free(state);
    return number == IVLEAGUE_DONE ? 0 : 1;
}
