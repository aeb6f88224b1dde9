/* replay: serves a request log by the proved controller. */
#define _POSIX_C_SOURCE 200809L

#include <fcntl.h>
#include <inttypes.h>
#include <signal.h>
#include <stdio.h>
#include <unistd.h>

#include "check.h"
#include "format.h"
#include "inspect.h"
#include "ivleague.h"
#include "lock.h"
#include "log.h"
#include "options.h"
#include "paths.h"
#include "picture.h"
#include "progress.h"
#include "state.h"
#include "summary.h"
#include "target.h"

/* A run: logs, a state, and what was served so far. */
struct replay {
    struct options options;
    struct log log;
    struct lock lock;
    struct sizes sizes;
    struct state state;
    struct batch batch;
    struct summary summary;
    struct progress progress;
    const char *cut; /* a log that may be cut off, or NULL */
};

static void print_words(const struct state *state)
{
    puts("words");
    for (size_t i = 0; i < state->length; i++)
        printf("%" PRIu64 "\n", state->words[i]);
}

static enum status open_log(struct replay *replay, size_t place)
{
    const struct options *options = &replay->options;
    enum status status =
        log_open(&replay->log, options->logs[place], options->batch, options->strict);
    replay->log.batches = replay->summary.batches;
    return status;
}

/* Makes or loads the state, and reads the first log's sizes. */
static enum status begin(struct replay *replay)
{
    struct log *log = &replay->log;
    enum status status;
    if (replay->options.load) {
        status = state_load(&replay->state, replay->options.load, &replay->sizes);
        return status == STATUS_DONE ? log_same_sizes(log, &replay->sizes) : status;
    }
    status = log_sizes(log, &replay->sizes);
    return status == STATUS_DONE ? state_make(&replay->state, &replay->sizes) : status;
}

/* Answers go to the file that is named for them, as by a shell's >. */
static enum status redirect(const struct options *options)
{
    const char *name = options->output;
    bool done = !name || is_standard(name) || freopen(name, "w", stdout);
    return done ? STATUS_DONE : status_errno(name);
}

static enum status refused(const struct replay *replay, uint64_t number)
{
    return status_say(STATUS_REFUSED,
                      "%s:%" PRIu64 ": batch %" PRIu64 " is refused: %" PRIu64
                      ", %s (%zu request words)",
                      replay->log.name, replay->log.line, replay->summary.batches + 1, number,
                      ivleague_number_name(number), replay->batch.request_words);
}

static enum status serve(struct replay *replay)
{
    struct batch *batch = &replay->batch;
    uint64_t number = ivleague_serve(replay->state.words, replay->state.length, batch->requests,
                                     batch->request_words, batch->answers, batch->answer_words);
    if (number != IVLEAGUE_DONE)
        return refused(replay, number);
    summary_add(&replay->summary, batch, replay->options.summary || replay->options.strict);
    if (options_answers(&replay->options))
        format_answers(replay->options.format, batch);
    return ferror(stdout) ? status_errno("standard output") : STATUS_DONE;
}

static enum status serve_log(struct replay *replay)
{
    bool found = true;
    enum status status = STATUS_DONE;
    if (!replay->options.quiet)
        progress_begin(&replay->progress, replay->log.file, options_answers(&replay->options));
    while (status == STATUS_DONE && found) {
        status = log_batch(&replay->log, &replay->batch, &found);
        if (status == STATUS_DONE && found)
            status = serve(replay);
        if (status == STATUS_DONE)
            progress_step(&replay->progress, replay->log.bytes, replay->summary.requests);
    }
    progress_wipe();
    if (replay->log.cut)
        replay->cut = replay->log.name;
    return status;
}

/* Serves the first log, which is open, and the others after it. */
static enum status serve_logs(struct replay *replay)
{
    if (options_answers(&replay->options))
        format_header(replay->options.format);
    enum status status = serve_log(replay);
    for (size_t i = 1; i < replay->options.log_count && status == STATUS_DONE; i++) {
        log_close(&replay->log);
        status = open_log(replay, i);
        if (status == STATUS_DONE)
            status = log_same_sizes(&replay->log, &replay->sizes);
        if (status == STATUS_DONE)
            status = serve_log(replay);
    }
    return status;
}

static enum status flush(void)
{
    bool flushed = fflush(stdout) == 0 && !ferror(stdout);
    return flushed ? STATUS_DONE : status_errno("standard output");
}

/* A run that ends early says what it did, and saves that only where it is asked for. */
static void tell_served(const struct replay *replay)
{
    const struct options *options = &replay->options;
    uint64_t batches = replay->summary.batches;
    bool saved = options->save && options->save_served && batches > 0 &&
                 state_save(&replay->state, options->save) == STATUS_DONE;
    bool could = options->save && !options->save_served && batches > 0;
    status_say(STATUS_DONE, "replay: %" PRIu64 " batch%s served before that; %s%s", batches,
               batches == 1 ? " was" : "es were",
               saved ? "the state after them is saved" : "nothing is saved",
               could ? " (--save-served saves the state after them)" : "");
}

/* The files that are asked for, unless a log may have lost something. */
static enum status write_files(const struct replay *replay)
{
    enum status status = STATUS_DONE;
    const struct options *options = &replay->options;
    if (replay->cut && !options->save_served && (options->save || options->picture))
        return status_say(STATUS_INPUT,
                          "replay: nothing is saved, since the last line of %s may be cut off%s",
                          replay->cut, options->save ? " (--save-served saves)" : "");
    if (options->save)
        status = state_save(&replay->state, options->save);
    if (options->picture && status == STATUS_DONE)
        status = picture_save(replay->state.words, options->picture, !options->no_key);
    return status;
}

/* What is asked for when the logs are served to their ends. */
static enum status finish(const struct replay *replay)
{
    const struct options *options = &replay->options;
    if (options->summary)
        format_summary(options->format, &replay->summary, replay->state.words);
    if (options->words)
        print_words(&replay->state);
    enum status status = flush();
    return status == STATUS_DONE ? write_files(replay) : status;
}

/* What --strict says of a log that was served whole. */
static enum status judge(const struct replay *replay)
{
    uint64_t requests = replay->summary.requests;
    uint64_t refusals = requests - replay->summary.by_number[IVLEAGUE_DONE];
    if (refusals == 0)
        return STATUS_DONE;
    return status_say(STATUS_STRICT,
                      "replay: %s%s: %" PRIu64 " of %" PRIu64 " requests are refused",
                      replay->options.logs[0], replay->options.log_count > 1 ? " and others" : "",
                      refusals, requests);
}

/* Looks at what is read and written, and locks the state that is to be saved. */
static enum status prepare(struct replay *replay)
{
    const struct options *options = &replay->options;
    bool *again = &replay->state.again;
    enum status status = open_log(replay, 0);
    if (status == STATUS_DONE)
        status = paths_check(options, replay->log.file, again);
    return status == STATUS_DONE ? lock_take(&replay->lock, options->save, *again, options->wait)
                                 : status;
}

/* Serves, from a state that is there. */
static enum status serve_whole(struct replay *replay)
{
    enum status status = redirect(&replay->options);
    if (status != STATUS_DONE)
        return status;
    status = serve_logs(replay);
    if (status != STATUS_DONE && !ferror(stdout))
        tell_served(replay);
    if (status == STATUS_DONE)
        status = finish(replay);
    if (status == STATUS_DONE && replay->options.strict)
        status = judge(replay);
    return status;
}

static enum status run(struct replay *replay)
{
    enum status status = prepare(replay);
    if (status == STATUS_DONE)
        status = begin(replay);
    if (status == STATUS_DONE)
        status = serve_whole(replay);
    lock_release(&replay->lock);
    log_close(&replay->log);
    state_free(&replay->state);
    batch_free(&replay->batch);
    return status;
}

/* Where standard input or output is closed, no file of the run takes its number; using it fails. */
static enum status hold_standard(void)
{
    for (int file = STDIN_FILENO; file <= STDERR_FILENO; file++) {
        int wrong_way = file == STDIN_FILENO ? O_WRONLY : O_RDONLY;
        if (fcntl(file, F_GETFD) < 0 && open("/dev/null", wrong_way) != file)
            return status_errno("/dev/null");
    }
    return STATUS_DONE;
}

/* What is asked for by the command line, which is understood. */
static enum status perform(struct replay *replay)
{
    const struct options *options = &replay->options;
    enum status status = STATUS_DONE;
    if (options->help)
        fputs(help_text, stdout);
    else if (options->version)
        puts("replay " IVLEAGUE_VERSION);
    else if (options->inspect)
        status = inspect(options->inspect, options->format);
    else if (options->check)
        status = check_logs(options);
    else
        return run(replay);
    enum status flushed = flush();
    return flushed == STATUS_DONE ? status : flushed;
}

int main(int count, char **arguments)
{
    static struct replay replay = {.lock.file = -1, .log.file = -1};
    signal(SIGPIPE, SIG_IGN); /* a write that fails is told, and does not end the process */
    signal(SIGXFSZ, SIG_IGN);
    enum status status = hold_standard();
    if (status == STATUS_DONE)
        status = options_parse(&replay.options, count, arguments);
    if (status == STATUS_DONE)
        status = perform(&replay);
    options_free(&replay.options);
    return (int)status;
}
