/*
 * The stack that an audit and a batch take, at the largest sizes of every tier, beside what
 * ivleague.h promises. Each runs on a stack of its own that was painted before; the deepest
 * byte that lost its paint tells what it took.
 */
#define _XOPEN_SOURCE 700

#include <stdbool.h>
#include <stdio.h>
#include <stdlib.h>
#include <string.h>
#include <ucontext.h>

#include "ivleague.h"

enum { ROOM = 4 << 20, PAINT = 0xa5, PAGES = 4097, FRAMES = 2 * PAGES, MOST = PAGES / 8 + 24 };

/* As many holes as there may be, past the frames that are mapped. */
static const uint64_t holes[] = {FRAMES - 100, 7, FRAMES - 90, 7, FRAMES - 80, 7, FRAMES - 70, 7,
                                 FRAMES - 60,  7, FRAMES - 50, 7, FRAMES - 40, 7, FRAMES - 1,  1};

struct board {
    uint64_t treelings, domains, frames;
    uint64_t *state;
    size_t state_words;
};

static unsigned char *stack;
static ucontext_t here, there;
static struct board *board;
static uint64_t *requests, *answers; /* room for MOST of each */
static size_t request_words;
static uint64_t number;

static uint64_t *words(size_t count)
{
    uint64_t *buffer = calloc(count, sizeof *buffer);
    if (!buffer)
        exit(2);
    return buffer;
}

/* The bytes of the stack that a function took. */
static size_t taken(void (*function)(void))
{
    memset(stack, PAINT, ROOM);
    getcontext(&there);
    there.uc_stack.ss_sp = stack;
    there.uc_stack.ss_size = ROOM;
    there.uc_link = &here;
    makecontext(&there, function, 0);
    swapcontext(&here, &there);
    size_t at = 0;
    while (at < ROOM && stack[at] == PAINT)
        at++;
    return ROOM - at;
}

static void nothing(void)
{
}

static void audit(void)
{
    number = ivleague_audit(board->state, board->state_words);
}

static void serve(void)
{
    number = ivleague_serve(board->state, board->state_words, requests, request_words, answers,
                            2 * request_words);
}

static void ask(uint64_t call, uint64_t domain, uint64_t frame, uint64_t count)
{
    uint64_t *request = requests + request_words;
    request[IVLEAGUE_REQUEST_CALL] = call;
    request[IVLEAGUE_REQUEST_DOMAIN] = domain;
    request[IVLEAGUE_REQUEST_FRAME] = frame;
    request[IVLEAGUE_REQUEST_COUNT] = count;
    request_words += IVLEAGUE_REQUEST_WORDS;
}

/* Every call, done and refused: runs, a TreeLing filled, another begun and given back, releases and
 * a trim that regather. */
static void ask_all(const struct board *of)
{
    request_words = 0;
    uint64_t last = of->domains - 1;
    ask(IVLEAGUE_OPEN, last, 0, 0);
    ask(IVLEAGUE_OPEN, last, 0, 0);
    ask(IVLEAGUE_MAP, last, 0, 0);
    ask(IVLEAGUE_PATH, last, 0, 0);
    for (uint64_t frame = 1; frame < PAGES; frame += IVLEAGUE_LONGEST_RUN)
        ask(IVLEAGUE_MAP_RUN, last, frame, IVLEAGUE_LONGEST_RUN);
    for (uint64_t frame = 0; frame < PAGES; frame += 8)
        ask(IVLEAGUE_UNMAP, last, frame, 0);
    ask(IVLEAGUE_UNMAP, last, 1, 0);
    ask(IVLEAGUE_FILL, last, 0, 0);
    ask(IVLEAGUE_TRIM, last, 0, 0);
    ask(IVLEAGUE_MAP, last, 1, 0);
    ask(IVLEAGUE_UNMAP_RUN, last, 1, 7);
    ask(IVLEAGUE_TRIM, last, 0, 0);
    ask(IVLEAGUE_CLOSE, last, 0, 0);
    ask(IVLEAGUE_TRIM, last, 0, 0);
    ask(IVLEAGUE_FILL, last, 0, 0);
    ask(IVLEAGUE_MAP, last, FRAMES - 1, 0);
    ask(IVLEAGUE_MAP_RUN, last, FRAMES - IVLEAGUE_LONGEST_RUN, IVLEAGUE_LONGEST_RUN);
    ask(99, last, 0, 0);
}

/* Whether an audit and a batch of a state of these sizes stay within the promise. */
static bool within(uint64_t treelings, uint64_t domains)
{
    struct board here_board = {treelings, domains, FRAMES, NULL, 0};
    board = &here_board;
    board->state_words = (size_t)ivleague_state_words(treelings, domains, board->frames);
    board->state = words(board->state_words);
    if (ivleague_make(treelings, domains, board->frames, holes, sizeof holes / sizeof *holes,
                      board->state, board->state_words) != 0)
        exit(2);
    size_t least = taken(nothing);
    ask_all(board);
    size_t most = taken(serve) - least;
    if (number != IVLEAGUE_DONE)
        exit(2);
    size_t audited = taken(audit) - least;
    if (audited > most)
        most = audited;
    size_t promised = ivleague_stack_bytes(treelings, domains);
    printf("stack, T = %llu, D = %llu: %zu bytes of %zu\n", (unsigned long long)treelings,
           (unsigned long long)domains, most, promised);
    free(board->state);
    return most <= promised;
}

int main(void)
{
    stack = malloc(ROOM);
    requests = words((size_t)IVLEAGUE_REQUEST_WORDS * MOST);
    answers = words((size_t)IVLEAGUE_ANSWER_WORDS * MOST);
    if (!stack)
        return 2;
    bool good = true;
    static const uint64_t sizes[][2] = {{2, 1},      {16, 256},    {2, 257},     {17, 1},
                                        {256, 4096}, {1024, 4096}, {4096, 4096}};
    for (size_t i = 0; i < sizeof sizes / sizeof *sizes; i++)
        good = within(sizes[i][0], sizes[i][1]) && good;
    free(stack);
    free(requests);
    free(answers);
    if (!good)
        fputs("stack: a function takes more than ivleague.h promises\n", stderr);
    return good ? 0 : 1;
}
