#include "check.h"

#include <inttypes.h>
#include <stdio.h>

#include "ivleague.h"
#include "log.h"

/* What a log has so far. */
struct tally {
    uint64_t requests, batches, bad;
    uint64_t open; /* requests of the batch that no line has ended yet */
    bool sizes, said;
};

static void end_batch(struct tally *tally)
{
    tally->batches++;
    tally->open = 0;
}

static void count_request(struct tally *tally, const struct log *log)
{
    tally->requests++;
    tally->open++;
    if (tally->open == IVLEAGUE_MOST_REQUESTS + 1) {
        tally->bad++;
        log_say(log, STATUS_REFUSED, "batch %" PRIu64 " has more than %d requests",
                tally->batches + 1, IVLEAGUE_MOST_REQUESTS);
    }
    if (tally->open == log->most)
        end_batch(tally);
}

static void count_sizes(struct tally *tally, const struct log *log)
{
    if (tally->said) {
        tally->bad++;
        log_say(log, STATUS_INPUT, "a second sizes line, or one that is not first");
    }
    tally->sizes = true;
}

static void count_line(struct tally *tally, const struct log *log)
{
    enum line_kind kind = log->parsed.kind;
    if (kind == LINE_REQUEST)
        count_request(tally, log);
    else if (kind == LINE_SIZES)
        count_sizes(tally, log);
    else if (kind == LINE_BATCH)
        end_batch(tally);
    if (kind == LINE_BAD)
        log_bad(log);
    else if (log->parsed.cut)
        log_cut(log, STATUS_INPUT);
    tally->bad += kind == LINE_BAD || log->parsed.cut;
    tally->said = tally->said || kind != LINE_NOTHING;
}

static void print_good(const struct tally *tally, const char *name)
{
    printf("%s: every line is well formed, %" PRIu64 " request%s in %" PRIu64 " batch%s%s\n", name,
           tally->requests, tally->requests == 1 ? "" : "s", tally->batches,
           tally->batches == 1 ? "" : "es",
           tally->sizes ? "" : ", no sizes (a loaded state has them)");
}

static enum status check_log(struct log *log, bool quiet)
{
    bool found = true;
    struct tally tally = {0};
    enum status status = STATUS_DONE;
    while (status == STATUS_DONE && found) {
        status = log_line(log, &found);
        if (status == STATUS_DONE && found)
            count_line(&tally, log);
    }
    if (tally.open > 0)
        end_batch(&tally);
    if (status == STATUS_DONE && tally.bad > 0)
        status = STATUS_INPUT;
    if (status == STATUS_DONE && !quiet)
        print_good(&tally, log->name);
    return status;
}

enum status check_logs(const struct options *options)
{
    enum status worst = STATUS_DONE;
    for (size_t i = 0; i < options->log_count; i++) {
        struct log log;
        enum status status = log_open(&log, options->logs[i], options->batch, true);
        if (status == STATUS_DONE)
            status = check_log(&log, options->quiet);
        log_close(&log);
        worst = status > worst ? status : worst;
    }
    return worst;
}
