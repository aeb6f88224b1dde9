#include "options.h"

#include <stdio.h>
#include <stdlib.h>
#include <string.h>

#include "ivleague.h"
#include "target.h"

enum { MOST_NAME = 40 };

const char help_text[] =
    "usage: replay [OPTION..] LOG..\n"
    "       replay --check LOG..\n"
    "       replay --inspect FILE [--format json]\n"
    "\n"
    "Serves the requests of logs by the proved controller, one log after the other, and\n"
    "prints eight numbers for each request: number, rank, path nodes of levels 1 to 4,\n"
    "position, pages. LOG and FILE may be -, which is standard input or output; a state or\n"
    "picture there stands instead of the answers.\n"
    "\n"
    "  --batch N           end a batch after N requests, too (1 to 65536)\n"
    "  --summary           print counts by call and by number instead of the answers\n"
    "  --format FORMAT     print as plain (the default), named (for a person), both, csv or\n"
    "                      json\n"
    "  --output FILE, -o   print to FILE\n"
    "  --quiet, -q         print no answers, and no bar\n"
    "  --strict            end with status 3 if any request is refused; take no log that\n"
    "                      may be cut off\n"
    "  --words             print `words` and every word of the last state\n"
    "  --load FILE         begin with the state of FILE; the log's sizes line may be left out\n"
    "  --save FILE         write the last state to FILE, little-endian words\n"
    "  --save-served       with --save: write the state of the batches that were served, too,\n"
    "                      where a bad line or a refused batch ends the run, or a log is cut\n"
    "                      off\n"
    "  --wait              wait for another replay that works on the state to be saved\n"
    "  --picture FILE.svg  draw the last state's TreeLings\n"
    "  --no-key            leave the key of the picture out\n"
    "  --check             say whether every line of the logs is well formed; serve nothing\n"
    "  --inspect FILE      show a state file: sizes, TreeLings, domains, the audit's verdict\n"
    "  --help, -h          print this\n"
    "  --version, -V       print the version\n"
    "\n"
    "A log begins with `sizes T D P`; up to eight pairs after them are holes: first frame,\n"
    "length. Four numbers are a request: call, domain, frame, count. `batch` ends a batch;\n"
    "so does the end of the log if the batch has requests. # begins a comment, to the end\n"
    "of its line; blank lines say nothing. A last line without a newline is served with a\n"
    "warning, and nothing is saved then.\n"
    "\n"
    "Exit status: 0 done; 1 a batch or a state is refused; 2 usage, a file that cannot be\n"
    "read or written, or a line that is no request; 3 a request is refused and --strict is\n"
    "given; 4 another replay works on the state, or has changed it. The first refused batch\n"
    "and the first such line end the run; nothing of their batch is served. The answers of\n"
    "the batches before stand printed; no summary, words, state or picture is written then.\n";

static enum status wrong(const char *message, const char *word)
{
    return status_say(STATUS_INPUT, "replay: %s%s (replay --help says more)", message, word);
}

/* The number of requests after --batch. */
static enum status parse_batch(const char *text, size_t *batch)
{
    size_t length = strlen(text);
    bool digits = length >= 1 && length <= 5 && strspn(text, "0123456789") == length;
    unsigned long number = digits ? strtoul(text, NULL, 10) : 0;
    if (number < 1 || number > IVLEAGUE_MOST_REQUESTS)
        return wrong("a batch has 1 to 65536 requests, not ", text);
    *batch = number;
    return STATUS_DONE;
}

static enum status parse_format(const char *text, enum format *format)
{
    return format_parse(text, format)
               ? STATUS_DONE
               : wrong("a format is plain, named, both, csv or json, not ", text);
}

/* Whether a word is an option's name, or its letter. */
static bool is(const char *word, const char *name, const char *letter)
{
    return strcmp(word, name) == 0 || strcmp(word, letter) == 0;
}

/* The option that stands alone by this name. */
static bool *flag(struct options *options, const char *word)
{
    const struct {
        const char *name, *letter;
        bool *flag;
    } flags[] = {
        {"--summary", "", &options->summary},
        {"--words", "", &options->words},
        {"--strict", "", &options->strict},
        {"--wait", "", &options->wait},
        {"--save-served", "", &options->save_served},
        {"--no-key", "", &options->no_key},
        {"--quiet", "-q", &options->quiet},
        {"--check", "", &options->check},
        {"--help", "-h", &options->help},
        {"--version", "-V", &options->version},
    };
    for (size_t i = 0; i < sizeof flags / sizeof *flags && *word != '\0'; i++)
        if (is(word, flags[i].name, flags[i].letter))
            return flags[i].flag;
    return NULL;
}

/* The option that takes a file by this name. */
static const char **file(struct options *options, const char *word)
{
    if (strcmp(word, "--load") == 0)
        return &options->load;
    if (strcmp(word, "--save") == 0)
        return &options->save;
    if (strcmp(word, "--picture") == 0)
        return &options->picture;
    if (strcmp(word, "--inspect") == 0)
        return &options->inspect;
    if (is(word, "--output", "-o"))
        return &options->output;
    return NULL;
}

static void take_log(struct options *options, const char *word)
{
    options->logs[options->log_count++] = word;
}

/* Takes one option or the log from the front; value is the word after it. */
static enum status take(struct options *options, const char *word, const char *value, int *used)
{
    bool *set = flag(options, word);
    const char **name = file(options, word);
    bool batch = strcmp(word, "--batch") == 0;
    bool format = strcmp(word, "--format") == 0;
    *used = name || batch || format ? 2 : 1;
    if (*used == 2 && !value)
        return wrong("a value is missing after ", word);
    if (batch)
        return parse_batch(value, &options->batch);
    if (format)
        return parse_format(value, &options->format);
    if (!set && !name && word[0] == '-' && word[1] != '\0')
        return wrong("not understood: ", word);
    if (!set && !name)
        take_log(options, word);
    else if (set)
        *set = true;
    else
        *name = value;
    return STATUS_DONE;
}

/* Takes an argument; an option's value may stand in it, after a `=`. */
static enum status take_argument(struct options *options, const char *word, const char *next,
                                 int *used)
{
    char name[MOST_NAME];
    const char *equal = strncmp(word, "--", 2) == 0 ? strchr(word, '=') : NULL;
    if (!equal)
        return take(options, word, next, used);
    snprintf(name, sizeof name, "%.*s", (int)(equal - word), word);
    enum status status = take(options, name, equal + 1, used);
    if (status == STATUS_DONE && *used == 1)
        return wrong("no value is expected after ", name);
    *used = 1;
    return status;
}

/* How often standard input is a log. */
static size_t standard_logs(const struct options *options)
{
    size_t count = 0;
    for (size_t i = 0; i < options->log_count; i++)
        count += is_standard(options->logs[i]);
    return count;
}

/* Standard input is one thing, and so is standard output. */
static enum status check_standard(const struct options *options)
{
    bool save = is_standard(options->save);
    bool picture = is_standard(options->picture);
    bool prints = options->summary || options->words || options->format != FORMAT_PLAIN ||
                  (options->output && !is_standard(options->output));
    size_t logs = standard_logs(options);
    if (logs > 0 && is_standard(options->load))
        return wrong("standard input is the log or the state of --load, not both", "");
    if (logs > 1)
        return wrong("standard input is one log, not two", "");
    if ((save || picture) && (prints || (save && picture)))
        return wrong(save ? "--save -" : "--picture -", " leaves no standard output for another");
    return STATUS_DONE;
}

bool options_answers(const struct options *options)
{
    return !options->summary && !options->quiet && !is_standard(options->save) &&
           !is_standard(options->picture);
}

/* Whether anything is asked for that needs a state. */
static bool serves(const struct options *options)
{
    return options->load || options->save || options->picture || options->summary ||
           options->words || options->strict || options->wait || options->save_served ||
           options->no_key || options->output;
}

/* An inspection has its file alone, and may be for a program. */
static enum status check_inspect(const struct options *options)
{
    bool format = options->format == FORMAT_PLAIN || options->format == FORMAT_JSON;
    bool alone = options->log_count == 0 && !serves(options) && !options->check &&
                 !options->quiet && options->batch == 0;
    return format && alone ? STATUS_DONE
                           : wrong("nothing goes with --inspect", " but --format json");
}

/* Sees that what is asked for goes together. */
static enum status check(const struct options *options)
{
    if (options->inspect)
        return check_inspect(options);
    if (options->log_count == 0)
        return wrong("a log is missing", "");
    if (options->check && (serves(options) || options->format != FORMAT_PLAIN))
        return wrong("nothing goes with --check", " but --batch and --quiet");
    if (options->words && options->format != FORMAT_PLAIN)
        return wrong("--words goes with ", "--format plain alone");
    if (!options->save && (options->save_served || options->wait))
        return wrong(options->wait ? "--wait" : "--save-served", " goes with --save");
    if (!options->picture && options->no_key)
        return wrong("--no-key", " goes with --picture");
    return STATUS_DONE;
}

void options_free(struct options *options)
{
    free(options->logs);
}

enum status options_parse(struct options *options, int count, char **arguments)
{
    bool ended = false; /* by -- */
    enum status status = STATUS_DONE;
    *options = (struct options){.logs = calloc((size_t)count + 1, sizeof *options->logs)};
    if (!options->logs)
        return status_errno("the command line");
    for (int i = 1, used = 1; i < count && status == STATUS_DONE; i += used, used = 1) {
        const char *next = i + 1 < count ? arguments[i + 1] : NULL;
        if (ended)
            take_log(options, arguments[i]);
        else if (strcmp(arguments[i], "--") == 0)
            ended = true;
        else
            status = take_argument(options, arguments[i], next, &used);
    }
    if (status != STATUS_DONE || options->help || options->version)
        return status;
    status = check(options);
    return status == STATUS_DONE ? check_standard(options) : status;
}
