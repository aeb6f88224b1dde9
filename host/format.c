#include "format.h"

#include <inttypes.h>
#include <stdio.h>
#include <string.h>

#include "ivleague.h"
#include "named.h"
#include "text.h"

bool format_parse(const char *text, enum format *format)
{
    static const char *const names[] = {[FORMAT_PLAIN] = "plain",
                                        [FORMAT_NAMED] = "named",
                                        [FORMAT_BOTH] = "both",
                                        [FORMAT_CSV] = "csv",
                                        [FORMAT_JSON] = "json"};
    for (size_t i = 0; i < sizeof names / sizeof *names; i++) {
        if (strcmp(text, names[i]) == 0) {
            *format = (enum format)i;
            return true;
        }
    }
    return false;
}

/* A request and its answer: the words of each part, where they lie. */
enum part { PART_LINE, PART_REQUEST, PART_ANSWER, PARTS };

struct record {
    const uint64_t *parts[PARTS];
};

/* A field of csv and json. */
struct field {
    const char *name;
    const char *(*text)(uint64_t word); /* the name of a word; NULL: its number */
    enum part part;
    size_t word;   /* of the part */
    char json[16]; /* what stands before it in json */
    size_t json_length;
};

#define FIELD(before, name, text, part, word)                                                      \
    {name, text, part, word, before "\"" name "\":", sizeof before + sizeof "\"" name "\":" - 2}
#define REQUEST(name, text, word) FIELD(",", name, text, PART_REQUEST, IVLEAGUE_REQUEST_##word)
#define ANSWER(name, text, word) FIELD(",", name, text, PART_ANSWER, IVLEAGUE_ANSWER_##word)

static const struct field fields[] = {
    FIELD("{", "line", NULL, PART_LINE, 0),
    REQUEST("call", NULL, CALL),
    REQUEST("call_name", ivleague_call_name, CALL),
    REQUEST("domain", NULL, DOMAIN),
    REQUEST("frame", NULL, FRAME),
    REQUEST("count", NULL, COUNT),
    ANSWER("number", NULL, NUMBER),
    ANSWER("answer", ivleague_number_name, NUMBER),
    ANSWER("rank", NULL, RANK),
    ANSWER("level_1", NULL, LEVEL_1),
    ANSWER("level_2", NULL, LEVEL_2),
    ANSWER("level_3", NULL, LEVEL_3),
    ANSWER("level_4", NULL, LEVEL_4),
    ANSWER("position", NULL, POSITION),
    ANSWER("pages", NULL, PAGES),
};

/* Bytes that are written at once, and more than any record has; columns of most answers' words. */
enum {
    FIELDS = sizeof fields / sizeof *fields,
    BLOCK = 65536,
    MOST_RECORD = 1024,
    WORDS_WIDTH = 22
};

static uint64_t word_of(const struct record *record, const struct field *field)
{
    return record->parts[field->part][field->word];
}

static char *put_plain(char *to, const struct record *record)
{
    const uint64_t *answer = record->parts[PART_ANSWER];
    for (size_t i = 0; i < IVLEAGUE_ANSWER_WORDS; i++) {
        to = text_number(to, answer[i]);
        *to++ = ' ';
    }
    to[-1] = '\n';
    return to;
}

/* Texts need no quoting. */
static char *put_csv(char *to, const struct record *record)
{
    for (const struct field *field = fields; field < fields + FIELDS; field++) {
        uint64_t word = word_of(record, field);
        to = field->text ? text_copy(to, field->text(word)) : text_number(to, word);
        *to++ = ',';
    }
    to[-1] = '\n';
    return to;
}

/* Texts need no escapes. What stands before a value is copied with zeros behind it, at once. */
static char *put_json(char *to, const struct record *record)
{
    for (const struct field *field = fields; field < fields + FIELDS; field++) {
        uint64_t word = word_of(record, field);
        memcpy(to, field->json, sizeof field->json);
        to += field->json_length;
        if (!field->text) {
            to = text_number(to, word);
            continue;
        }
        *to++ = '"';
        to = text_copy(to, field->text(word));
        *to++ = '"';
    }
    return text_copy(to, "}\n");
}

/* The names of the fields, for csv alone. */
void format_header(enum format format)
{
    for (size_t i = 0; i < FIELDS && format == FORMAT_CSV; i++)
        printf("%s%c", fields[i].name, i + 1 < FIELDS ? ',' : '\n');
}

static struct record record_at(const struct batch *batch, size_t place)
{
    return (struct record){{
        [PART_LINE] = batch->lines + place,
        [PART_REQUEST] = batch->requests + IVLEAGUE_REQUEST_WORDS * place,
        [PART_ANSWER] = batch->answers + IVLEAGUE_ANSWER_WORDS * place,
    }};
}

static void print_named(const struct batch *batch)
{
    for (size_t i = 0; i < batch->request_words / IVLEAGUE_REQUEST_WORDS; i++) {
        struct record record = record_at(batch, i);
        named_print(*record.parts[PART_LINE], record.parts[PART_REQUEST],
                    record.parts[PART_ANSWER]);
    }
}

/* The words of an answer, and beside them what they mean. */
static void print_both(const struct batch *batch)
{
    for (size_t i = 0; i < batch->request_words / IVLEAGUE_REQUEST_WORDS; i++) {
        char words[MOST_RECORD];
        struct record record = record_at(batch, i);
        *(put_plain(words, &record) - 1) = '\0';
        printf("%-*s  ", WORDS_WIDTH, words);
        named_print(*record.parts[PART_LINE], record.parts[PART_REQUEST],
                    record.parts[PART_ANSWER]);
    }
}

/* Prints a record for each request. */
static void print_records(char *(*put)(char *to, const struct record *record),
                          const struct batch *batch)
{
    static char block[BLOCK + MOST_RECORD];
    char *to = block;
    for (size_t i = 0; i < batch->request_words / IVLEAGUE_REQUEST_WORDS; i++) {
        struct record record = record_at(batch, i);
        to = put(to, &record);
        if (to < block + BLOCK)
            continue;
        fwrite(block, 1, (size_t)(to - block), stdout);
        to = block;
    }
    fwrite(block, 1, (size_t)(to - block), stdout);
}

void format_answers(enum format format, const struct batch *batch)
{
    switch (format) {
    case FORMAT_PLAIN:
        print_records(put_plain, batch);
        break;
    case FORMAT_NAMED:
        print_named(batch);
        break;
    case FORMAT_BOTH:
        print_both(batch);
        break;
    case FORMAT_CSV:
        print_records(put_csv, batch);
        break;
    case FORMAT_JSON:
        print_records(put_json, batch);
        break;
    }
}

static void summary_plain(const struct summary *summary, const struct use *use,
                          const uint64_t *state)
{
    printf("batches %" PRIu64 "\nrequests %" PRIu64 "\n", summary->batches, summary->requests);
    for (uint64_t call = 0; call <= IVLEAGUE_CALLS; call++)
        if (summary->by_call[call] > 0)
            printf("%8" PRIu64 "  asked for %s\n", summary->by_call[call],
                   ivleague_call_name(call));
    for (uint64_t number = 0; number < IVLEAGUE_NUMBERS; number++)
        if (summary->by_number[number] > 0)
            printf("%8" PRIu64 "  answered %2" PRIu64 ", %s\n", summary->by_number[number], number,
                   ivleague_number_name(number));
    printf("domains live %" PRIu64 " of %" PRIu64 "\n", use->domains, state[IVLEAGUE_DOMAINS]);
    printf("TreeLings owned %" PRIu64 " of %" PRIu64 "\n", use->treelings,
           state[IVLEAGUE_TREELINGS]);
    printf("frames mapped %" PRIu64 " of %" PRIu64 "\n", use->pages, state[IVLEAGUE_FRAMES]);
}

/* An item's name: a call's, with no space in it. */
static void print_asked(const char *call_name)
{
    printf("asked_");
    for (; *call_name; call_name++)
        putchar(*call_name == ' ' ? '_' : *call_name);
}

static void summary_csv(const struct summary *summary, const struct use *use, const uint64_t *state)
{
    printf("item,number,answer,count,of\n");
    printf("batches,,,%" PRIu64 ",\nrequests,,,%" PRIu64 ",\n", summary->batches,
           summary->requests);
    for (uint64_t call = 0; call <= IVLEAGUE_CALLS; call++)
        if (summary->by_call[call] > 0) {
            print_asked(ivleague_call_name(call));
            printf(",,,%" PRIu64 ",%" PRIu64 "\n", summary->by_call[call], summary->requests);
        }
    for (uint64_t number = 0; number < IVLEAGUE_NUMBERS; number++)
        if (summary->by_number[number] > 0)
            printf("answers,%" PRIu64 ",%s,%" PRIu64 ",%" PRIu64 "\n", number,
                   ivleague_number_name(number), summary->by_number[number], summary->requests);
    printf("domains_live,,,%" PRIu64 ",%" PRIu64 "\n", use->domains, state[IVLEAGUE_DOMAINS]);
    printf("treelings_owned,,,%" PRIu64 ",%" PRIu64 "\n", use->treelings,
           state[IVLEAGUE_TREELINGS]);
    printf("frames_mapped,,,%" PRIu64 ",%" PRIu64 "\n", use->pages, state[IVLEAGUE_FRAMES]);
}

static void json_calls(const struct summary *summary)
{
    const char *before = "";
    for (uint64_t call = 0; call <= IVLEAGUE_CALLS; call++) {
        if (summary->by_call[call] == 0)
            continue;
        printf("%s{\"call_name\":\"%s\",\"count\":%" PRIu64 "}", before, ivleague_call_name(call),
               summary->by_call[call]);
        before = ",";
    }
}

static void json_answers(const struct summary *summary)
{
    const char *before = "";
    for (uint64_t number = 0; number < IVLEAGUE_NUMBERS; number++) {
        if (summary->by_number[number] == 0)
            continue;
        printf("%s{\"number\":%" PRIu64 ",\"answer\":\"%s\",\"count\":%" PRIu64 "}", before, number,
               ivleague_number_name(number), summary->by_number[number]);
        before = ",";
    }
}

static void summary_json(const struct summary *summary, const struct use *use,
                         const uint64_t *state)
{
    printf("{\"batches\":%" PRIu64 ",\"requests\":%" PRIu64, summary->batches, summary->requests);
    printf(",\"calls\":[");
    json_calls(summary);
    printf("],\"answers\":[");
    json_answers(summary);
    printf("],\"domains_live\":%" PRIu64 ",\"domains\":%" PRIu64, use->domains,
           state[IVLEAGUE_DOMAINS]);
    printf(",\"treelings_owned\":%" PRIu64 ",\"treelings\":%" PRIu64, use->treelings,
           state[IVLEAGUE_TREELINGS]);
    printf(",\"frames_mapped\":%" PRIu64 ",\"frames\":%" PRIu64 "}\n", use->pages,
           state[IVLEAGUE_FRAMES]);
}

void format_summary(enum format format, const struct summary *summary, const uint64_t *state)
{
    struct use use = state_use(state);
    if (format == FORMAT_CSV)
        summary_csv(summary, &use, state);
    else if (format == FORMAT_JSON)
        summary_json(summary, &use, state);
    else
        summary_plain(summary, &use, state);
}
