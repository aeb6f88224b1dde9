#include "look.h"

/* Colours, no two of them near each other. */
static const char *const colours[] = {
    "#3a7bc8", "#d1492e", "#2f9a57", "#8d4fc0", "#e09a1a", "#17a2b0",
    "#c93a8c", "#8a9a1c", "#7d4a2b", "#2b3a8c", "#ea7f95", "#0f5c4c",
};

/* White marks on a square of six, the most different first. */
static const char *const patterns[] = {
    "",
    "<path d='M-1 1L1-1M0 6L6 0M5 7L7 5' stroke='#fff' stroke-width='1.7'/>",
    "<circle cx='3' cy='3' r='1.6' fill='#fff'/>",
    "<path d='M3 0V6' stroke='#fff' stroke-width='2.2'/>",
    "<path d='M0 3H6' stroke='#fff' stroke-width='1.8'/>",
    "<path d='M0 0L6 6M0 6L6 0' stroke='#fff' stroke-width='1.3'/>",
    "<path d='M-1 5L1 7M0 0L6 6M5-1L7 1' stroke='#fff' stroke-width='1.7'/>",
    "<path d='M0 0H3V3H0ZM3 3H6V6H3Z' fill='#fff'/>",
};

enum { COLOURS = sizeof colours / sizeof *colours, PATTERNS = sizeof patterns / sizeof *patterns };
_Static_assert(LOOKS == COLOURS * PATTERNS, "a look for each colour and pattern");

const char *look_colour(unsigned look)
{
    return colours[look % COLOURS];
}

void look_define(FILE *file, unsigned look)
{
    fprintf(file,
            "<pattern id='look%u' width='6' height='6' patternUnits='userSpaceOnUse'>"
            "<rect width='6' height='6' fill='%s'/>%s</pattern>\n",
            look, look_colour(look), patterns[look / COLOURS % PATTERNS]);
}
