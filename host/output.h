/*
 * Something to write. A file is written under another name and put in its place when it is whole;
 * a pipe, a device and standard output, which is -, are written through.
 */
#ifndef OUTPUT_H
#define OUTPUT_H

#include <stdio.h>

#include "status.h"
#include "target.h"

struct output {
    const char *name;
    const struct stat *replaces; /* the file that was loaded, if this one is to be it; or NULL */
    struct target target;
    char *temporary; /* NULL: written through */
    int held;        /* keeps the temporary file locked until it has its name; or -1 */
    FILE *file;
};

/* Signals wait until a file that is begun is closed; one is open at a time. */
enum status output_open(struct output *output, const char *name);

/* Brings it to the disk and into its place; on a failure an old file stays. */
enum status output_close(struct output *output);

#endif
