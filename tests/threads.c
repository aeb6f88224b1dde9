/*
 * Two states served by two threads at once, each on the stack that ivleague.h names, against the
 * same batches served alone.
 */
#define _POSIX_C_SOURCE 200809L

#include <pthread.h>
#include <stdbool.h>
#include <stdio.h>
#include <stdlib.h>
#include <string.h>

#include "ivleague.h"

/* What a thread itself takes of its stack; a sanitizer's takes more. */
#ifndef THREAD_STACK
#define THREAD_STACK 65536
#endif

enum { BATCHES = 60, REQUESTS = 400 };

struct board {
    uint64_t treelings, domains, frames, seed;
    uint64_t holes[2 * IVLEAGUE_HOLE_WORDS];
    uint64_t *state;
    size_t state_words;
    uint64_t *requests;
    size_t request_words;
    uint64_t *answers; /* of all batches */
    uint64_t done;
};

static uint64_t below(uint64_t *seed, uint64_t most)
{
    *seed ^= *seed << 13;
    *seed ^= *seed >> 7;
    *seed ^= *seed << 17;
    return *seed % most;
}

static uint64_t *words(size_t count)
{
    uint64_t *buffer = calloc(count, sizeof *buffer);
    if (!buffer)
        exit(2);
    return buffer;
}

/* Opens, maps, unmaps, paths, runs, trims and fills of any domain, and now and then a close. */
static void fill_requests(struct board *board)
{
    static const uint64_t calls[] = {1, 1, 3, 3, 4, 5, 6, 6, 6, 7, 7, 8, 11};
    uint64_t *seed = &board->seed;
    for (size_t i = 0; i < board->request_words; i += IVLEAGUE_REQUEST_WORDS) {
        uint64_t *request = board->requests + i;
        uint64_t call = below(seed, 50) == 0 ? 2 : calls[below(seed, sizeof calls / sizeof *calls)];
        request[IVLEAGUE_REQUEST_CALL] = call;
        request[IVLEAGUE_REQUEST_DOMAIN] = below(seed, board->domains);
        if (call >= IVLEAGUE_MAP && call <= IVLEAGUE_UNMAP_RUN)
            request[IVLEAGUE_REQUEST_FRAME] = below(seed, board->frames);
        if (call == IVLEAGUE_MAP_RUN || call == IVLEAGUE_UNMAP_RUN)
            request[IVLEAGUE_REQUEST_COUNT] = 1 + below(seed, 300);
    }
}

static struct board make_board(uint64_t treelings, uint64_t domains, uint64_t frames, uint64_t seed)
{
    struct board board = {treelings, domains, frames, .seed = seed,
                          .holes = {7, 3, frames / 2, frames / 9}};
    board.state_words = (size_t)ivleague_state_words(treelings, domains, frames);
    board.state = words(board.state_words);
    board.request_words = (size_t)BATCHES * REQUESTS * IVLEAGUE_REQUEST_WORDS;
    board.requests = words(board.request_words);
    board.answers = words(2 * board.request_words);
    fill_requests(&board);
    return board;
}

static void free_board(struct board *board)
{
    free(board->state);
    free(board->requests);
    free(board->answers);
}

static void *serve(void *lent)
{
    struct board *board = lent;
    size_t length = REQUESTS * IVLEAGUE_REQUEST_WORDS;
    board->done += ivleague_make(board->treelings, board->domains, board->frames, board->holes,
                                 sizeof board->holes / sizeof *board->holes, board->state,
                                 board->state_words) == IVLEAGUE_DONE;
    for (size_t i = 0; i < board->request_words; i += length)
        board->done += ivleague_serve(board->state, board->state_words, board->requests + i, length,
                                      board->answers + 2 * i, 2 * length) == IVLEAGUE_DONE;
    return NULL;
}

/* Serves a board in a thread of its own, with little more stack than the library needs. */
static pthread_t start(struct board *board)
{
    pthread_t thread;
    pthread_attr_t attributes;
    size_t stack = THREAD_STACK + ivleague_stack_bytes(board->treelings, board->domains);
    if (pthread_attr_init(&attributes) != 0 || pthread_attr_setstacksize(&attributes, stack) != 0 ||
        pthread_create(&thread, &attributes, serve, board) != 0)
        exit(2);
    pthread_attr_destroy(&attributes);
    return thread;
}

static bool same(const struct board *one, const struct board *other)
{
    size_t state = one->state_words * sizeof *one->state;
    size_t answers = 2 * one->request_words * sizeof *one->answers;
    return one->done == 1 + BATCHES && other->done == one->done &&
           memcmp(one->state, other->state, state) == 0 &&
           memcmp(one->answers, other->answers, answers) == 0;
}

/* Two boards at once, then each alone. */
static bool compare(uint64_t treelings, uint64_t domains, uint64_t frames)
{
    struct board boards[4];
    for (size_t i = 0; i < 4; i++)
        boards[i] = make_board(treelings, domains, frames, 1 + i % 2);
    pthread_t one = start(&boards[0]);
    pthread_t other = start(&boards[1]);
    pthread_join(one, NULL);
    pthread_join(other, NULL);
    serve(&boards[2]);
    serve(&boards[3]);
    bool equal = same(&boards[0], &boards[2]) && same(&boards[1], &boards[3]);
    for (size_t i = 0; i < 4; i++)
        free_board(&boards[i]);
    return equal;
}

int main(void)
{
    static const uint64_t sizes[][3] = {{1, 1, 4097},       {16, 256, 60000},   {17, 9, 60000},
                                        {256, 300, 100000}, {1024, 50, 200000}, {1025, 40, 200000}};
    for (size_t i = 0; i < sizeof sizes / sizeof *sizes; i++)
        if (!compare(sizes[i][0], sizes[i][1], sizes[i][2])) {
            fprintf(stderr, "threads: sizes %d differ\n", (int)i);
            return 1;
        }
    puts("two threads: every word as alone");
    return 0;
}
