#include "text.h"

#include <string.h>

/* Two digits at a time. */
static const char pairs[] = "00010203040506070809101112131415161718192021222324"
                            "25262728293031323334353637383940414243444546474849"
                            "50515253545556575859606162636465666768697071727374"
                            "75767778798081828384858687888990919293949596979899";

static unsigned count_digits(uint64_t number)
{
    unsigned count = 1;
    for (; number >= 100; number /= 100)
        count += 2;
    return count + (number >= 10);
}

char *text_long_number(char *to, uint64_t number)
{
    char *end = to + count_digits(number);
    char *first = end;
    for (; number >= 10; number /= 100)
        memcpy(first -= 2, pairs + 2 * (number % 100), 2);
    if (first > to)
        *to = (char)('0' + number);
    return end;
}

char *text_copy(char *to, const char *text)
{
    size_t length = strlen(text);
    memcpy(to, text, length);
    return to + length;
}
