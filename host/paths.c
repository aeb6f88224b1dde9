#define _POSIX_C_SOURCE 200809L

#include "paths.h"

#include <errno.h>
#include <unistd.h>

#include "target.h"

/* What is read besides the logs, then what is written. */
enum path { PATH_LOAD, PATH_ANSWERS, PATH_SAVE, PATH_PICTURE, PATHS };

struct paths {
    const struct options *options;
    int log; /* the first one */
    struct target targets[PATHS];
};

static bool is_named(const char *name)
{
    return name && !is_standard(name);
}

static const char *title(const struct paths *paths, enum path path)
{
    static const char *const titles[PATHS] = {
        [PATH_LOAD] = "--load",
        [PATH_ANSWERS] = "standard output",
        [PATH_SAVE] = "--save",
        [PATH_PICTURE] = "--picture",
    };
    bool file = path == PATH_ANSWERS && is_named(paths->options->output);
    return file ? "--output" : titles[path];
}

static struct target log_target(const struct paths *paths, size_t place)
{
    const char *name = paths->options->logs[place];
    struct target target = target_opened(place == 0 ? paths->log : STDIN_FILENO);
    if (place > 0 && !is_standard(name))
        target.there = stat(name, &target.about) == 0;
    return target;
}

/* Looks at an output and at every log. */
static enum status compare_logs(const struct paths *paths, enum path output)
{
    for (size_t i = 0; i < paths->options->log_count; i++) {
        struct target log = log_target(paths, i);
        if (target_same(&paths->targets[output], &log))
            return status_say(STATUS_INPUT, "replay: %s and the log are one file",
                              title(paths, output));
    }
    return STATUS_DONE;
}

/* Looks at an output and at all before it. A state may be saved where it was loaded. */
static enum status compare(const struct paths *paths, enum path output)
{
    for (enum path other = PATH_LOAD; other < output; other++) {
        bool allowed = output == PATH_SAVE && other == PATH_LOAD;
        if (!allowed && target_same(&paths->targets[output], &paths->targets[other]))
            return status_say(STATUS_INPUT, "replay: %s and %s are one file", title(paths, output),
                              title(paths, other));
    }
    return compare_logs(paths, output);
}

/* Looks at the output of this name, if it has one. */
static enum status look(struct paths *paths, enum path output, const char *name)
{
    if (!is_named(name))
        return STATUS_DONE;
    enum status status = target_find(&paths->targets[output], name);
    return status == STATUS_DONE ? compare(paths, output) : status;
}

/* Answers go to a file, or to standard output. */
static enum status look_at_answers(struct paths *paths)
{
    if (is_named(paths->options->output))
        return look(paths, PATH_ANSWERS, paths->options->output);
    paths->targets[PATH_ANSWERS] = target_opened(STDOUT_FILENO);
    return compare(paths, PATH_ANSWERS);
}

/* Logs after the first are opened when it is their turn; what can be told of them is told now. */
static enum status look_at_logs(const struct options *options)
{
    for (size_t i = 1; i < options->log_count; i++) {
        struct stat about;
        const char *name = options->logs[i];
        if (is_standard(name))
            continue;
        bool readable = access(name, R_OK) == 0 && stat(name, &about) == 0;
        if (readable && !S_ISDIR(about.st_mode))
            continue;
        errno = readable ? EISDIR : errno;
        return status_errno(name);
    }
    return STATUS_DONE;
}

static bool is_again(const struct paths *paths)
{
    const struct target *load = &paths->targets[PATH_LOAD], *save = &paths->targets[PATH_SAVE];
    return save->path && (target_same(load, save) || target_same_name(load, save));
}

enum status paths_check(const struct options *options, int log, bool *again)
{
    struct paths paths = {.options = options, .log = log};
    enum status status = look_at_logs(options);
    if (is_named(options->load))
        target_look(&paths.targets[PATH_LOAD], options->load);
    if (status == STATUS_DONE)
        status = look_at_answers(&paths);
    if (status == STATUS_DONE)
        status = look(&paths, PATH_SAVE, options->save);
    if (status == STATUS_DONE)
        status = look(&paths, PATH_PICTURE, options->picture);
    *again = is_again(&paths);
    for (enum path path = PATH_LOAD; path < PATHS; path++)
        target_free(&paths.targets[path]);
    return status;
}
