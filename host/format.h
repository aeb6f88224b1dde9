/* Answers and summaries on standard output: for people, or for programs (docs/OUTPUT.md). */
#ifndef FORMAT_H
#define FORMAT_H

#include <stdbool.h>

#include "log.h"
#include "summary.h"

enum format { FORMAT_PLAIN, FORMAT_NAMED, FORMAT_BOTH, FORMAT_CSV, FORMAT_JSON };

/* The format of this name; false if there is none. */
bool format_parse(const char *text, enum format *format);

/* Prints what comes before the first answer. */
void format_header(enum format format);

/* Prints the answers of a batch that was served. */
void format_answers(enum format format, const struct batch *batch);

/* Prints a summary, and what the state has in use. */
void format_summary(enum format format, const struct summary *summary, const uint64_t *state);

#endif
