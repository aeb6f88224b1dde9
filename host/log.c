#define _POSIX_C_SOURCE 200809L

#include "log.h"

#include <errno.h>
#include <fcntl.h>
#include <inttypes.h>
#include <stdarg.h>
#include <stdio.h>
#include <stdlib.h>
#include <string.h>
#include <sys/stat.h>
#include <unistd.h>

#include "ivleague.h"
#include "target.h"

/* Bytes of a line, with its end, and of the block that is read at once. */
enum { MOST_LINE = 1048576, BLOCK = MOST_LINE + 262144 };

/* Request words of a batch. */
enum { MOST_WORDS = IVLEAGUE_MOST_REQUESTS * IVLEAGUE_REQUEST_WORDS };

enum status log_open(struct log *log, const char *name, size_t most, bool strict)
{
    struct stat about;
    *log = (struct log){.name = name, .file = -1, .most = most, .strict = strict};
    log->block = malloc(BLOCK);
    if (log->block)
        log->file = is_standard(name) ? STDIN_FILENO : open(name, O_RDONLY | O_NOCTTY | O_CLOEXEC);
    if (log->file < 0)
        return status_errno(name);
    log->waits = fstat(log->file, &about) != 0 || !S_ISREG(about.st_mode);
    return STATUS_DONE;
}

void log_close(struct log *log)
{
    if (log->block && log->file >= 0 && log->file != STDIN_FILENO)
        close(log->file);
    free(log->block);
    log->block = NULL;
}

enum status log_say(const struct log *log, enum status status, const char *format, ...)
{
    char message[MOST_MESSAGE];
    va_list values;
    va_start(values, format);
    vsnprintf(message, sizeof message, format, values);
    va_end(values);
    return status_say(status, "%s:%" PRIu64 ": %s", log->name, log->line, message);
}

/* Reads more behind the bytes that are not used yet. Where that may wait, answers go out first. */
static enum status read_more(struct log *log)
{
    ssize_t count;
    if (log->at > 0)
        memmove(log->block, log->block + log->at, log->end - log->at);
    log->end -= log->at;
    log->at = 0;
    if (log->waits && fflush(stdout) != 0)
        return status_errno("standard output");
    do {
        count = read(log->file, log->block + log->end, BLOCK - log->end);
    } while (count < 0 && errno == EINTR);
    if (count < 0)
        return status_errno(log->name);
    log->ended = count == 0;
    log->end += (size_t)count;
    return STATUS_DONE;
}

/* Finds the next line where it lies: up to its end, or more bytes than a line may have. */
static enum status find_line(struct log *log, size_t *length)
{
    enum status status = STATUS_DONE;
    size_t searched = 0;
    const char *newline = NULL;
    while (status == STATUS_DONE) {
        const char *from = log->block + log->at;
        *length = log->end - log->at;
        if (*length > searched)
            newline = memchr(from + searched, '\n', *length - searched);
        if (newline)
            *length = (size_t)(newline - from) + 1;
        if (newline || log->ended || *length > MOST_LINE)
            break;
        searched = *length;
        status = read_more(log);
    }
    return status;
}

/* What is added to a message where lines may have been meant to end by carriage returns alone. */
static const char *hint(const struct log *log)
{
    return log->parsed.returns ? " (lines end by LF or CR LF, and this one has CR inside)" : "";
}

enum status log_bad(const struct log *log)
{
    return log_say(log, STATUS_INPUT, "%s%s", log->parsed.message, hint(log));
}

enum status log_cut(const struct log *log, enum status status)
{
    return log_say(log, status, "the last line has no newline and may be cut off%s", hint(log));
}

/* The end counts as a line. */
enum status log_line(struct log *log, bool *found)
{
    size_t length;
    log->line++;
    enum status status = find_line(log, &length);
    *found = status == STATUS_DONE && length > 0;
    if (status != STATUS_DONE)
        return status;
    if (length > MOST_LINE)
        return log_say(log, STATUS_INPUT, "a line has at most %d bytes", MOST_LINE);
    line_parse(log->block + log->at, length, log->line == 1, &log->parsed);
    log->at += length;
    log->bytes += length;
    return STATUS_DONE;
}

/* A line that may be cut off is told, and taken unless the log is to be whole. */
static enum status take_cut(struct log *log)
{
    log->cut = !log->strict;
    return log_cut(log, log->strict ? STATUS_INPUT : STATUS_DONE);
}

/* Reads a line that is not bad, unless one is waiting; none is left at the end. */
static enum status read_line(struct log *log, bool *found)
{
    *found = true;
    if (log->waiting) {
        log->waiting = false;
        return STATUS_DONE;
    }
    enum status status = log_line(log, found);
    if (status != STATUS_DONE || !*found)
        return status;
    if (log->parsed.kind == LINE_BAD)
        return log_bad(log);
    return log->parsed.cut ? take_cut(log) : STATUS_DONE;
}

/* Reads the first line that says something and keeps it waiting. */
static enum status first_line(struct log *log, bool *found)
{
    enum status status;
    do {
        status = read_line(log, found);
    } while (status == STATUS_DONE && *found && log->parsed.kind == LINE_NOTHING);
    log->waiting = *found;
    return status;
}

enum status log_sizes(struct log *log, struct sizes *sizes)
{
    bool found;
    enum status status = first_line(log, &found);
    if (status != STATUS_DONE)
        return status;
    if (!found || log->parsed.kind != LINE_SIZES)
        return log_say(log, STATUS_INPUT, "a sizes line must come first: sizes T D P");
    const uint64_t *numbers = log->parsed.numbers;
    *sizes = (struct sizes){numbers[0], numbers[1], numbers[2], log->parsed.holes};
    log->waiting = false;
    return STATUS_DONE;
}

/* Sees that the line names these holes; the first one that differs is told. */
static enum status same_holes(const struct log *log, const struct holes *holes)
{
    for (size_t i = 0; i < IVLEAGUE_MOST_HOLES; i++) {
        const uint64_t *here = hole_at(&log->parsed.holes, i), *there = hole_at(holes, i);
        if (memcmp(here, there, IVLEAGUE_HOLE_WORDS * sizeof *here) != 0)
            return log_say(log, STATUS_INPUT, "hole %zu differs: %s here, %s in the loaded state",
                           i + 1, hole_show(here).text, hole_show(there).text);
    }
    return STATUS_DONE;
}

enum status log_same_sizes(struct log *log, const struct sizes *sizes)
{
    bool found;
    enum status status = first_line(log, &found);
    if (status != STATUS_DONE || !found || log->parsed.kind != LINE_SIZES)
        return status;
    const uint64_t *numbers = log->parsed.numbers;
    log->waiting = false;
    if (numbers[0] == sizes->treelings && numbers[1] == sizes->domains &&
        numbers[2] == sizes->frames)
        return same_holes(log, &sizes->holes);
    return log_say(log, STATUS_INPUT,
                   "sizes differ: %" PRIu64 " %" PRIu64 " %" PRIu64 " here, %" PRIu64 " %" PRIu64
                   " %" PRIu64 " in the loaded state",
                   numbers[0], numbers[1], numbers[2], sizes->treelings, sizes->domains,
                   sizes->frames);
}

/* Room for so many request words, and for their answers. */
static enum status make_room(struct batch *batch, size_t words)
{
    if (words <= batch->room && batch->room > 0)
        return STATUS_DONE;
    size_t room = batch->room > 0 ? 2 * batch->room : 4096;
    uint64_t *requests = realloc(batch->requests, room * sizeof *requests);
    if (!requests)
        return status_errno("a batch");
    batch->requests = requests;
    uint64_t *answers = realloc(batch->answers, 2 * room * sizeof *answers);
    if (!answers)
        return status_errno("a batch");
    batch->answers = answers;
    uint64_t *lines = realloc(batch->lines, room / IVLEAGUE_REQUEST_WORDS * sizeof *lines);
    if (!lines)
        return status_errno("a batch");
    batch->lines = lines;
    batch->room = room;
    return STATUS_DONE;
}

/* A request past the most that a batch may have is refused where it stands. */
static enum status too_many(const struct log *log)
{
    return log_say(log, STATUS_REFUSED,
                   "batch %" PRIu64 " is refused: %d, more than %d requests (--batch %d ends a "
                   "batch in time)",
                   log->batches, IVLEAGUE_REFUSED_REQUESTS, IVLEAGUE_MOST_REQUESTS,
                   IVLEAGUE_MOST_REQUESTS);
}

static enum status add_request(struct batch *batch, const uint64_t *words, uint64_t line)
{
    enum status status = make_room(batch, batch->request_words + IVLEAGUE_REQUEST_WORDS);
    if (status != STATUS_DONE)
        return status;
    memcpy(batch->requests + batch->request_words, words, IVLEAGUE_REQUEST_WORDS * sizeof *words);
    batch->lines[batch->request_words / IVLEAGUE_REQUEST_WORDS] = line;
    batch->request_words += IVLEAGUE_REQUEST_WORDS;
    return STATUS_DONE;
}

/* Reads a line into the batch; ended says that the batch, or the log, ends there. */
static enum status take_line(struct log *log, struct batch *batch, bool *found, bool *ended)
{
    enum status status = read_line(log, found);
    *ended = !*found || log->parsed.kind == LINE_BATCH;
    if (status != STATUS_DONE || *ended)
        return status;
    if (log->parsed.kind == LINE_SIZES)
        return log_say(log, STATUS_INPUT, "a second sizes line, or one that is not first");
    if (log->parsed.kind == LINE_REQUEST && batch->request_words == MOST_WORDS)
        return too_many(log);
    if (log->parsed.kind == LINE_REQUEST)
        status = add_request(batch, log->parsed.numbers, log->line);
    *ended = log->most > 0 && batch->request_words == log->most * IVLEAGUE_REQUEST_WORDS;
    return status;
}

enum status log_batch(struct log *log, struct batch *batch, bool *found)
{
    bool ended = false;
    *found = false;
    batch->request_words = 0;
    log->batches++;
    enum status status = make_room(batch, 0);
    while (status == STATUS_DONE && !ended)
        status = take_line(log, batch, found, &ended);
    *found = status == STATUS_DONE && (*found || batch->request_words > 0);
    batch->answer_words = 2 * batch->request_words;
    return status;
}

void batch_free(struct batch *batch)
{
    free(batch->requests);
    free(batch->answers);
    free(batch->lines);
}
