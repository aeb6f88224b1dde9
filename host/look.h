/* How the domains of a picture look: a colour, and a pattern over it. */
#ifndef LOOK_H
#define LOOK_H

#include <stdio.h>

/* Looks are numbered from 0; no two of them are alike. */
enum { LOOKS = 96 };

/* The colour alone, as #rrggbb. */
const char *look_colour(unsigned look);

/* Defines the fill url(#lookN) of a look. */
void look_define(FILE *file, unsigned look);

#endif
