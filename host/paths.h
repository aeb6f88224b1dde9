/* The paths of a run, looked at before its first request is served. */
#ifndef PATHS_H
#define PATHS_H

#include <stdbool.h>

#include "options.h"
#include "status.h"

/*
 * Every output can be written, and is no other output nor what is read. Nothing is written. The
 * first log is open; again says that the state is saved where it is loaded.
 */
enum status paths_check(const struct options *options, int log, bool *again);

#endif
