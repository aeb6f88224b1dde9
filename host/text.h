/* Text that is put together in memory, without printf, since a log may have millions of lines. */
#ifndef TEXT_H
#define TEXT_H

#include <stdint.h>

/* All write to a place that has room, end nothing by a zero, and return where the text ends. */
char *text_long_number(char *to, uint64_t number);
char *text_copy(char *to, const char *text);

static inline char *text_number(char *to, uint64_t number)
{
    if (number >= 10)
        return text_long_number(to, number);
    *to = (char)('0' + number);
    return to + 1;
}

#endif
