/*
 * What one request, one run and one audit take at most, by the TreeLings of a domain: worst [N..]
 * prints the times, of 16 TreeLings unless others are named. A domain whose leaf nodes all have a
 * free position regathers at each unmap outside its head block, as document 01 has it. Fails where
 * 16 TreeLings take far more than the manual says.
 */
#define _POSIX_C_SOURCE 200809L
#include <inttypes.h>
#include <ivleague.h>
#include <stdio.h>
#include <stdlib.h>
#include <sys/resource.h>
#include <time.h>

enum { NODES = IVLEAGUE_NFL_WORDS, BATCH = IVLEAGUE_MOST_REQUESTS, USUAL = 16 };

/* Nanoseconds for each TreeLing of an unmap that regathers, as the manual has it, and how much
 * slower a busy machine may be. */
enum { STATED = 2500, SLACK = 6 };

static uint64_t *state;
static size_t length;
static uint64_t requests[BATCH * IVLEAGUE_REQUEST_WORDS], answers[BATCH * IVLEAGUE_ANSWER_WORDS];
static size_t asked;

static void stop(const char *what)
{
    fprintf(stderr, "worst: %s\n", what);
    exit(1);
}

static double now(void)
{
    struct timespec time;
    clock_gettime(CLOCK_THREAD_CPUTIME_ID, &time);
    return (double)time.tv_sec + 1e-9 * (double)time.tv_nsec;
}

/* Serves what was asked; the answer is the time that it took. Every request is to be done. */
static double serve(void)
{
    double begin = now();
    if (ivleague_serve(state, length, requests, IVLEAGUE_REQUEST_WORDS * asked, answers,
                       IVLEAGUE_ANSWER_WORDS * asked) != IVLEAGUE_DONE)
        stop("a batch is refused");
    double end = now();
    for (size_t i = 0; i < asked; i++)
        if (answers[IVLEAGUE_ANSWER_WORDS * i] != IVLEAGUE_DONE)
            stop("a request is refused");
    asked = 0;
    return end - begin;
}

static void ask(uint64_t call, uint64_t frame, uint64_t count)
{
    uint64_t *request = requests + IVLEAGUE_REQUEST_WORDS * asked++;
    request[IVLEAGUE_REQUEST_CALL] = call;
    request[IVLEAGUE_REQUEST_DOMAIN] = 0;
    request[IVLEAGUE_REQUEST_FRAME] = frame;
    request[IVLEAGUE_REQUEST_COUNT] = count;
    if (asked == BATCH)
        serve();
}

/* The time of one request, without the audit before it. */
static double alone(uint64_t call, uint64_t frame, uint64_t count)
{
    double audit = serve();
    ask(call, frame, count);
    double both = serve();
    return both > audit ? both - audit : 0;
}

/* Frames below 512 n have position 0 of each leaf node, and are unmapped; the others lie behind. */
static void fill(uint64_t treelings)
{
    uint64_t nodes = NODES * treelings;
    ask(IVLEAGUE_OPEN, 0, 0);
    for (uint64_t node = 0; node < nodes; node++) {
        ask(IVLEAGUE_MAP, node, 0);
        for (uint64_t i = 0; i < 7; i++)
            ask(IVLEAGUE_MAP, nodes + 7 * node + i, 0);
    }
    for (uint64_t frame = 0; frame < nodes; frame += NODES)
        ask(IVLEAGUE_UNMAP_RUN, frame, NODES);
    serve();
}

static void measure(uint64_t treelings)
{
    uint64_t frames = (uint64_t)IVLEAGUE_SLOTS * treelings;
    length = (size_t)ivleague_state_words(treelings, 1, frames);
    state = malloc(length * sizeof *state);
    if (!state || ivleague_make(treelings, 1, frames, NULL, 0, state, length) != IVLEAGUE_DONE)
        stop("no state");
    fill(treelings);
    double audit = serve();
    double run = alone(IVLEAGUE_UNMAP_RUN, frames - IVLEAGUE_LONGEST_RUN, IVLEAGUE_LONGEST_RUN);
    double unmap = alone(IVLEAGUE_UNMAP, frames - IVLEAGUE_LONGEST_RUN - 1, 0);
    double map = alone(IVLEAGUE_MAP_RUN, frames - IVLEAGUE_LONGEST_RUN, IVLEAGUE_LONGEST_RUN);
    double trim = alone(IVLEAGUE_TRIM, 0, 0);
    double close = alone(IVLEAGUE_CLOSE, 0, 0);
    printf("%4" PRIu64 " TreeLings: audit %.3f ms, unmap %.3f ms, unmap run %.3f s, map run "
           "%.3f ms, trim %.3f ms, close %.3f ms\n",
           treelings, 1e3 * audit, 1e3 * unmap, run, 1e3 * map, 1e3 * trim, 1e3 * close);
    if (treelings == USUAL && run > 1e-9 * STATED * SLACK * USUAL * IVLEAGUE_LONGEST_RUN)
        stop("a run takes longer than the manual says");
    free(state);
}

int main(int count, char **arguments)
{
    struct rlimit limit;
    if (getrlimit(RLIMIT_STACK, &limit) != 0 || limit.rlim_cur < (rlim_t)4 * 1024 * 1024)
        stop("the stack is too small");
    for (int i = 1; i < count; i++)
        measure(strtoull(arguments[i], NULL, 10));
    if (count == 1)
        measure(USUAL);
    return 0;
}
