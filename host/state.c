#define _POSIX_C_SOURCE 200809L

#include "state.h"

#include <inttypes.h>
#include <stdio.h>
#include <stdlib.h>
#include <sys/resource.h>

#include "ivleague.h"
#include "output.h"

enum { WORD_BYTES = 8, CHUNK_WORDS = 8192, OWN_STACK = 256 * 1024, LEAST_CONTENTS_WORDS = 8 };

/* How earlier versions laid a state out: the same four bodies, at other places. */
struct layout {
    uint64_t contents, treeling; /* words of the contents, and of a TreeLing's record */
    const char *guess;           /* what is said of words that are laid out so */
};

static const struct layout old_layouts[] = {
    {LEAST_CONTENTS_WORDS, 4,
     "it may be a state of version 2 or earlier, whose contents had 8 words: "
     "make a new state and replay its log"},
    {IVLEAGUE_CONTENTS_WORDS, 4,
     "it may be a state of version 3, whose TreeLing records had 4 words: "
     "make a new state and replay its log"},
};

/* Words past the longest state's, which no audit passes. */
static size_t too_long(void)
{
    return 1 + (size_t)ivleague_state_words(IVLEAGUE_MOST_TREELINGS, IVLEAGUE_MOST_DOMAINS,
                                            IVLEAGUE_MOST_FRAMES);
}

/* Sees that the library has the stack that it needs for these sizes. */
static enum status have_stack(uint64_t treelings, uint64_t domains)
{
    struct rlimit limit;
    rlim_t bytes = OWN_STACK + ivleague_stack_bytes(treelings, domains);
    if (getrlimit(RLIMIT_STACK, &limit) != 0)
        return status_errno("the stack's limit");
    if (limit.rlim_cur == RLIM_INFINITY || limit.rlim_cur >= bytes)
        return STATUS_DONE;
    limit.rlim_cur = bytes;
    if (setrlimit(RLIMIT_STACK, &limit) == 0)
        return STATUS_DONE;
    return status_say(STATUS_INPUT, "replay: a state of these sizes needs %ju bytes of stack",
                      (uintmax_t)bytes);
}

enum status state_make(struct state *state, const struct sizes *sizes)
{
    enum status status = have_stack(sizes->treelings, sizes->domains);
    if (status != STATUS_DONE)
        return status;
    uint64_t length = ivleague_state_words(sizes->treelings, sizes->domains, sizes->frames);
    state->length = (size_t)length;
    state->words = malloc(state->length * sizeof *state->words);
    if (!state->words)
        return status_errno("a state");
    const struct holes *holes = &sizes->holes;
    uint64_t number =
        ivleague_make(sizes->treelings, sizes->domains, sizes->frames, holes->words,
                      IVLEAGUE_HOLE_WORDS * holes->count, state->words, state->length);
    if (number == IVLEAGUE_DONE)
        return STATUS_DONE;
    return status_say(STATUS_REFUSED, "replay: no state is made: %" PRIu64 ", %s", number,
                      ivleague_number_name(number));
}

static uint64_t word_of(const unsigned char *bytes)
{
    uint64_t word = 0;
    for (size_t i = WORD_BYTES; i > 0; i--)
        word = word << 8 | bytes[i - 1];
    return word;
}

static void bytes_of(uint64_t word, unsigned char *bytes)
{
    for (size_t i = 0; i < WORD_BYTES; i++)
        bytes[i] = (unsigned char)(word >> (8 * i));
}

/* Room for another chunk. */
static enum status make_room(struct state *state)
{
    if (state->room - state->length >= CHUNK_WORDS)
        return STATUS_DONE;
    size_t room = 2 * state->room + CHUNK_WORDS;
    uint64_t *words = realloc(state->words, room * sizeof *words);
    if (!words)
        return status_errno("a state");
    state->words = words;
    state->room = room;
    return STATUS_DONE;
}

/* Adds the words of some bytes; a last part of a word counts as none. */
static void add_words(struct state *state, const unsigned char *bytes, size_t count)
{
    for (size_t i = 0; i + WORD_BYTES <= count; i += WORD_BYTES)
        state->words[state->length++] = word_of(bytes + i);
}

/* Reads words to the end, or until they are too many. */
static enum status read_words(struct state *state, const char *name, FILE *file)
{
    unsigned char bytes[WORD_BYTES * CHUNK_WORDS];
    size_t count = sizeof bytes;
    while (count == sizeof bytes && state->length < too_long()) {
        enum status status = make_room(state);
        if (status != STATUS_DONE)
            return status;
        count = fread(bytes, 1, sizeof bytes, file);
        add_words(state, bytes, count);
    }
    if (ferror(file))
        return status_errno(name);
    if (count % WORD_BYTES == 0)
        return STATUS_DONE;
    return status_say(STATUS_INPUT, "replay: %s: 8-byte words are expected, not %zu bytes", name,
                      WORD_BYTES * state->length + count % WORD_BYTES);
}

static bool within(uint64_t number, uint64_t most)
{
    return number >= 1 && number <= most;
}

static bool is_laid_out(const struct state *state, const struct layout *layout)
{
    const uint64_t *words = state->words;
    if (state->length < LEAST_CONTENTS_WORDS)
        return false;
    uint64_t treelings = words[IVLEAGUE_TREELINGS], domains = words[IVLEAGUE_DOMAINS];
    uint64_t frames = words[IVLEAGUE_FRAMES];
    uint64_t records = layout->contents + IVLEAGUE_DOMAIN_WORDS * domains;
    uint64_t entries = records + layout->treeling * treelings;
    uint64_t leaf_map = entries + IVLEAGUE_NFL_WORDS * treelings;
    return within(treelings, IVLEAGUE_MOST_TREELINGS) && within(domains, IVLEAGUE_MOST_DOMAINS) &&
           within(frames, IVLEAGUE_MOST_FRAMES) &&
           words[IVLEAGUE_DOMAINS_START] == layout->contents &&
           words[IVLEAGUE_TREELINGS_START] == records && words[IVLEAGUE_NFL_START] == entries &&
           words[IVLEAGUE_LEAF_MAP_START] == leaf_map && state->length == leaf_map + frames;
}

const char *state_guess(const struct state *state)
{
    for (size_t i = 0; i < sizeof old_layouts / sizeof *old_layouts; i++)
        if (is_laid_out(state, &old_layouts[i]))
            return old_layouts[i].guess;
    return "";
}

static enum status audit(const struct state *state, const char *name)
{
    uint64_t number = ivleague_audit(state->words, state->length);
    if (number == IVLEAGUE_DONE)
        return STATUS_DONE;
    const char *guess = number == IVLEAGUE_REFUSED_CONTENTS ? state_guess(state) : "";
    return status_say(STATUS_REFUSED,
                      "replay: %s: the state is refused: %" PRIu64 ", %s (%zu words read)%s%s",
                      name, number, ivleague_number_name(number), state->length,
                      *guess != '\0' ? "; " : "", guess);
}

enum status state_read(struct state *state, const char *name)
{
    bool standard = is_standard(name);
    FILE *file = standard ? stdin : fopen(name, "rb");
    if (!file)
        return status_errno(name);
    bool known = fstat(fileno(file), &state->about) == 0;
    enum status status = known ? read_words(state, name, file) : status_errno(name);
    if (!standard)
        fclose(file);
    if (status == STATUS_DONE && state->length >= IVLEAGUE_CONTENTS_WORDS)
        status = have_stack(state->words[IVLEAGUE_TREELINGS], state->words[IVLEAGUE_DOMAINS]);
    return status;
}

enum status state_load(struct state *state, const char *name, struct sizes *sizes)
{
    enum status status = state_read(state, name);
    if (status == STATUS_DONE)
        status = audit(state, name);
    if (status == STATUS_DONE) {
        const uint64_t *words = state->words;
        *sizes = (struct sizes){words[IVLEAGUE_TREELINGS], words[IVLEAGUE_DOMAINS],
                                words[IVLEAGUE_FRAMES], holes_of(words)};
    }
    return status;
}

static void write_words(const struct state *state, FILE *file)
{
    for (size_t i = 0; i < state->length && !ferror(file); i++) {
        unsigned char bytes[WORD_BYTES];
        bytes_of(state->words[i], bytes);
        fwrite(bytes, 1, sizeof bytes, file);
    }
}

enum status state_save(const struct state *state, const char *name)
{
    struct output output;
    enum status status = output_open(&output, name);
    if (status != STATUS_DONE)
        return status;
    output.replaces = state->again ? &state->about : NULL;
    write_words(state, output.file);
    return output_close(&output);
}

void state_free(struct state *state)
{
    free(state->words);
}
