/* The key of a picture: every domain that owns TreeLings, and what the marks mean. */
#ifndef KEY_H
#define KEY_H

#include "drawing.h"

struct key {
    unsigned left, top;     /* where it begins */
    unsigned rows;          /* domains in a column */
    unsigned width, height; /* of all */
};

/* Lays the key out beside a grid that is so high. */
struct key key_beside(const struct drawing *drawing, unsigned left, unsigned height);

/* Lays the key out beneath a grid that is so wide. */
struct key key_beneath(const struct drawing *drawing, unsigned top, unsigned width);

void key_draw(const struct drawing *drawing, const struct key *key);

/* A cell's darkness in percent, 14 for none and 30 to 99 for some. */
unsigned key_darkness(unsigned pages, unsigned most);

#endif
