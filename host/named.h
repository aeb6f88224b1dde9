/* A request and its answer by name, for a person (docs/OUTPUT.md). */
#ifndef NAMED_H
#define NAMED_H

#include <stdint.h>

/* Prints one line on standard output; line is where the log has the request, from 1. */
void named_print(uint64_t line, const uint64_t *request, const uint64_t *answer);

#endif
