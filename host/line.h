/* One line of a log. */
#ifndef LINE_H
#define LINE_H

#include <stdbool.h>
#include <stddef.h>
#include <stdint.h>

#include "holes.h"

enum { MOST_MESSAGE = 240 }; /* bytes of a message about a line */

enum line_kind {
    LINE_NOTHING, /* blank, but for a comment */
    LINE_SIZES,   /* numbers 0 to 2 are T, D and P, each within its limit; holes are theirs */
    LINE_REQUEST, /* numbers 0 to 3 are the request's words */
    LINE_BATCH,
    LINE_BAD /* the message says why */
};

struct line {
    enum line_kind kind;
    uint64_t numbers[4];
    struct holes holes;
    bool cut;     /* it has numbers and no newline behind them */
    bool returns; /* it has carriage returns inside, as if these ended lines */
    char message[MOST_MESSAGE];
};

/* Reads a line, which may hold any bytes; a log's first one may begin with a byte-order mark. */
void line_parse(const char *text, size_t length, bool first, struct line *line);

#endif
