#include "named.h"

#include <inttypes.h>
#include <stdbool.h>
#include <stdio.h>

#include "calls.h"
#include "ivleague.h"

/* What a call's line has: words that its request uses, and those that its done answer fills. */
struct shape {
    bool frame, count;
    bool pages, place, returned, fill;
};

/* Open has none of this, nor has a number that is no call. */
static const struct shape shapes[IVLEAGUE_CALLS] = {
    [IVLEAGUE_CLOSE] = {.pages = true},
    [IVLEAGUE_MAP] = {.frame = true, .pages = true, .place = true},
    [IVLEAGUE_UNMAP] = {.frame = true, .pages = true},
    [IVLEAGUE_PATH] = {.frame = true, .place = true},
    [IVLEAGUE_MAP_RUN] = {.frame = true, .count = true, .pages = true},
    [IVLEAGUE_UNMAP_RUN] = {.frame = true, .count = true, .pages = true},
    [IVLEAGUE_TRIM] = {.returned = true},
    [IVLEAGUE_FILL] = {.fill = true},
};

/* A number with commas between thousands. */
static void print_thousands(uint64_t number)
{
    if (number < 1000) {
        printf("%" PRIu64, number);
        return;
    }
    print_thousands(number / 1000);
    printf(",%03" PRIu64, number % 1000);
}

/* A word that the call uses, or that should be 0 and is not. */
static void print_word(const char *name, bool used, uint64_t word)
{
    if (used || word != 0)
        printf(", %s %" PRIu64, name, word);
}

static void print_request(const uint64_t *request, const struct shape *shape)
{
    uint64_t call = request[IVLEAGUE_REQUEST_CALL];
    printf("%s", ivleague_call_name(call));
    if (!is_call(call))
        printf(" %" PRIu64, call);
    printf(" of domain %" PRIu64, request[IVLEAGUE_REQUEST_DOMAIN]);
    print_word("frame", shape->frame, request[IVLEAGUE_REQUEST_FRAME]);
    print_word("count", shape->count, request[IVLEAGUE_REQUEST_COUNT]);
}

static void print_pages(uint64_t pages)
{
    printf(", ");
    print_thousands(pages);
    printf(" page%s", pages == 1 ? "" : "s");
}

static void print_place(const uint64_t *answer)
{
    printf(", rank %" PRIu64 ", path", answer[IVLEAGUE_ANSWER_RANK]);
    for (size_t i = IVLEAGUE_ANSWER_LEVEL_1; i <= IVLEAGUE_ANSWER_LEVEL_4; i++)
        printf(" %" PRIu64, answer[i]);
    printf(", position %" PRIu64, answer[IVLEAGUE_ANSWER_POSITION]);
}

/* The TreeLings that a trim gave back. */
static void print_returned(uint64_t treelings)
{
    if (treelings == 0) {
        printf(", nothing to return");
        return;
    }
    printf(", ");
    print_thousands(treelings);
    printf(" TreeLing%s returned", treelings == 1 ? "" : "s");
}

/* Per cent from thousandths, and what they leave over. */
static void print_fill(const uint64_t *answer)
{
    uint64_t quotient = answer[IVLEAGUE_FILL_QUOTIENT];
    if (answer[IVLEAGUE_FILL_SLOTS] == 0) {
        printf(", no slots");
        return;
    }
    printf(", %" PRIu64 ".%" PRIu64 " %% of ", quotient / 10, quotient % 10);
    print_thousands(answer[IVLEAGUE_FILL_SLOTS]);
    printf(" slots");
    if (answer[IVLEAGUE_FILL_REMAINDER] != 0) {
        printf(", remainder ");
        print_thousands(answer[IVLEAGUE_FILL_REMAINDER]);
    }
}

static void print_answer(const uint64_t *answer, const struct shape *shape)
{
    uint64_t number = answer[IVLEAGUE_ANSWER_NUMBER];
    if (number != IVLEAGUE_DONE) {
        printf("refused, %" PRIu64 " %s", number, ivleague_number_name(number));
        return;
    }
    printf("%s", ivleague_number_name(number));
    if (shape->pages)
        print_pages(answer[IVLEAGUE_ANSWER_PAGES]);
    if (shape->place)
        print_place(answer);
    if (shape->returned)
        print_returned(answer[IVLEAGUE_TRIM_RETURNED]);
    if (shape->fill)
        print_fill(answer);
}

void named_print(uint64_t line, const uint64_t *request, const uint64_t *answer)
{
    static const struct shape none;
    uint64_t call = request[IVLEAGUE_REQUEST_CALL];
    const struct shape *shape = call < IVLEAGUE_CALLS ? &shapes[call] : &none;
    printf("%" PRIu64 ": ", line);
    print_request(request, shape);
    printf(": ");
    print_answer(answer, shape);
    putchar('\n');
}
