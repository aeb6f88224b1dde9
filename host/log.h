/* A log, read batch by batch. */
#ifndef LOG_H
#define LOG_H

#include <stdbool.h>

#include "line.h"
#include "status.h"

/* What a new state is made of. */
struct sizes {
    uint64_t treelings, domains, frames;
    struct holes holes;
};

struct log {
    const char *name;
    int file;           /* -1: none */
    bool waits;         /* reading may wait for whoever writes it, and who may wait for answers */
    char *block;        /* bytes that are read; those from at to end are not used yet */
    size_t at, end;     /* of the block */
    bool ended;         /* nothing is left to read */
    uint64_t line;      /* number of the line read last, from 1 */
    uint64_t bytes;     /* of all lines so far */
    uint64_t batches;   /* read or begun so far */
    struct line parsed; /* what the line says */
    bool waiting;       /* it is read but not used yet */
    size_t most;        /* requests of a batch that no `batch` line ends; 0 is any */
    bool strict;        /* a last line that may be cut off is a bad one */
    bool cut;           /* there was one, and it was taken */
};

/* A batch's words. Both buffers are there and long enough, also for none. */
struct batch {
    uint64_t *requests;
    uint64_t *answers;
    uint64_t *lines; /* of the log, one for each request */
    size_t request_words;
    size_t answer_words;
    size_t room; /* request words that the buffers have room for */
};

/* Opens a log; - is standard input. */
enum status log_open(struct log *log, const char *name, size_t most, bool strict);
void log_close(struct log *log);

/* Reads the sizes line, which must come first. */
enum status log_sizes(struct log *log, struct sizes *sizes);

/* Reads the sizes line if there is one; it must name these, and the same holes. */
enum status log_same_sizes(struct log *log, const struct sizes *sizes);

/* Reads the next line, also a bad one; found says whether there is one. */
enum status log_line(struct log *log, bool *found);

/* Says what is wrong with the line read last, which is a bad one or may be cut off. */
enum status log_bad(const struct log *log);
enum status log_cut(const struct log *log, enum status status);

/* Reads the next batch; found says whether there is one. */
enum status log_batch(struct log *log, struct batch *batch, bool *found);
void batch_free(struct batch *batch);

/* Prints "FILE:LINE: message" about the line read last, and returns the status. */
enum status log_say(const struct log *log, enum status status, const char *format, ...)
    PRINTF_LIKE(3, 4);

#endif
