/* The command line. */
#ifndef OPTIONS_H
#define OPTIONS_H

#include <stdbool.h>
#include <stddef.h>

#include "format.h"
#include "status.h"

struct options {
    const char **logs; /* served one after the other */
    size_t log_count;
    const char *load;    /* NULL: a new state */
    const char *save;    /* NULL: none */
    const char *picture; /* NULL: none */
    const char *inspect; /* NULL: none; nothing but json is asked for then */
    const char *output;  /* NULL: standard output */
    enum format format;
    size_t batch; /* 0: batches end by `batch` lines alone */
    bool summary;
    bool words;
    bool strict;
    bool wait;
    bool save_served;
    bool no_key;
    bool quiet;
    bool check;
    bool help;
    bool version;
};

/* Whether the answers are printed: no summary and no file stands in their place, nor quiet. */
bool options_answers(const struct options *options);

/* The options are to be freed, also where they are refused. */
enum status options_parse(struct options *options, int count, char **arguments);
void options_free(struct options *options);

extern const char help_text[];

#endif
