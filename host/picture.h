/* A picture of a state's TreeLings: who owns them, how full they are, where the heads stand. */
#ifndef PICTURE_H
#define PICTURE_H

#include <stdbool.h>
#include <stdint.h>

#include "status.h"

/* Draws a sound state as SVG to a file, which is replaced whole; its key may be left out. */
enum status picture_save(const uint64_t *state, const char *name, bool key);

#endif
