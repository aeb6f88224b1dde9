#include "inspect.h"

#include <inttypes.h>
#include <stdbool.h>
#include <stdio.h>

#include "holes.h"
#include "ivleague.h"
#include "state.h"
#include "view.h"

/* Prints a word that holds a number + 1, or 0 for none. */
static void print_link(int width, uint64_t word)
{
    if (word == 0)
        printf(" %*s", width, "-");
    else
        printf(" %*" PRIu64, width, word - 1);
}

static void print_domain(const struct view *view, uint64_t domain)
{
    const uint64_t *record = domain_record(view, domain);
    if (!domain_shows(view, domain))
        return;
    printf("%6" PRIu64 " %4" PRIu64 " %8" PRIu64 " %10" PRIu64, domain,
           record[IVLEAGUE_DOMAIN_LIVE], record[IVLEAGUE_DOMAIN_PAGES], view->owned[domain]);
    print_link(6, record[IVLEAGUE_DOMAIN_FIRST]);
    print_link(5, record[IVLEAGUE_DOMAIN_LAST]);
    print_link(5, record[IVLEAGUE_DOMAIN_HEAD_TREELING]);
    printf(" %6" PRIu64 "\n", record[IVLEAGUE_DOMAIN_HEAD_BLOCK]);
}

static void print_treeling(const struct view *view, uint64_t treeling)
{
    const uint64_t *record = treeling_record(view, treeling);
    if (!treeling_shows(view, treeling))
        return;
    printf("%8" PRIu64, treeling);
    print_link(6, record[IVLEAGUE_TREELING_OWNER]);
    print_link(7, record[IVLEAGUE_TREELING_FORMER]);
    printf(" %5" PRIu64 " %6" PRIu64 " of %d\n", record[IVLEAGUE_TREELING_RANK],
           view->pages[treeling], IVLEAGUE_SLOTS);
}

static void print_domains(const struct view *view)
{
    puts("\ndomain live    pages  TreeLings  first  last  head  block");
    for (uint64_t d = 0; d < view->words[IVLEAGUE_DOMAINS]; d++)
        print_domain(view, d);
}

static void print_treelings(const struct view *view)
{
    puts("\nTreeLing  owner  former  rank  pages");
    for (uint64_t t = 0; t < view->words[IVLEAGUE_TREELINGS]; t++)
        print_treeling(view, t);
}

static void print_holes(const struct holes *holes)
{
    for (size_t i = 0; i < holes->count; i++) {
        const uint64_t *hole = hole_at(holes, i);
        printf("hole %zu: %s, %" PRIu64 " in all\n", i + 1, hole_show(hole).text,
               hole[IVLEAGUE_HOLE_LENGTH]);
    }
}

/* Prints how often there is something that no sound state has. */
static void print_fault(const char *what, uint64_t count)
{
    if (count > 0)
        printf("%s %" PRIu64 "\n", what, count);
}

static void print_faults(const struct view *view)
{
    print_fault("leaf map words that name no slot", view->strays);
    print_fault("frames mapped in holes", view->in_holes);
    print_fault("former owners that are no domain", view->unknown);
    print_fault("owned TreeLings with another former owner", view->others);
}

static void print_view(const struct view *view)
{
    const uint64_t *words = view->words;
    printf("sizes %" PRIu64 " %" PRIu64 " %" PRIu64 "\n", words[IVLEAGUE_TREELINGS],
           words[IVLEAGUE_DOMAINS], words[IVLEAGUE_FRAMES]);
    print_holes(&view->holes);
    printf("pool hand %" PRIu64 "\n", words[IVLEAGUE_HAND]);
    printf("domains live %" PRIu64 " of %" PRIu64 "\n", view->live, words[IVLEAGUE_DOMAINS]);
    printf("TreeLings owned %" PRIu64 " of %" PRIu64 "\n", view->treelings,
           words[IVLEAGUE_TREELINGS]);
    printf("frames mapped %" PRIu64 " of %" PRIu64 "\n", view->mapped, words[IVLEAGUE_FRAMES]);
    print_faults(view);
    print_domains(view);
    print_treelings(view);
}

/* Prints a word that holds a number + 1, or 0 for none. */
static void json_link(const char *name, uint64_t word)
{
    if (word == 0)
        printf(",\"%s\":null", name);
    else
        printf(",\"%s\":%" PRIu64, name, word - 1);
}

static void json_number(const char *name, uint64_t number)
{
    printf(",\"%s\":%" PRIu64, name, number);
}

static void json_holes(const struct holes *holes)
{
    printf(",\"holes\":[");
    for (size_t i = 0; i < holes->count; i++)
        printf("%s{\"first\":%" PRIu64 ",\"length\":%" PRIu64 "}", i > 0 ? "," : "",
               hole_at(holes, i)[IVLEAGUE_HOLE_FIRST], hole_at(holes, i)[IVLEAGUE_HOLE_LENGTH]);
    printf("]");
}

static void json_domains(const struct view *view)
{
    const char *before = "";
    printf(",\"domain_records\":[");
    for (uint64_t d = 0; d < view->words[IVLEAGUE_DOMAINS]; d++) {
        const uint64_t *record = domain_record(view, d);
        if (!domain_shows(view, d))
            continue;
        printf("%s{\"domain\":%" PRIu64, before, d);
        json_number("live", record[IVLEAGUE_DOMAIN_LIVE]);
        json_number("pages", record[IVLEAGUE_DOMAIN_PAGES]);
        json_number("treelings", view->owned[d]);
        json_link("first", record[IVLEAGUE_DOMAIN_FIRST]);
        json_link("last", record[IVLEAGUE_DOMAIN_LAST]);
        json_link("head", record[IVLEAGUE_DOMAIN_HEAD_TREELING]);
        json_number("block", record[IVLEAGUE_DOMAIN_HEAD_BLOCK]);
        printf("}");
        before = ",";
    }
    printf("]");
}

static void json_treelings(const struct view *view)
{
    const char *before = "";
    printf(",\"treeling_records\":[");
    for (uint64_t t = 0; t < view->words[IVLEAGUE_TREELINGS]; t++) {
        const uint64_t *record = treeling_record(view, t);
        if (!treeling_shows(view, t))
            continue;
        printf("%s{\"treeling\":%" PRIu64, before, t);
        json_link("owner", record[IVLEAGUE_TREELING_OWNER]);
        json_link("former", record[IVLEAGUE_TREELING_FORMER]);
        json_number("rank", record[IVLEAGUE_TREELING_RANK]);
        json_number("pages", view->pages[t]);
        printf("}");
        before = ",";
    }
    printf("]");
}

static void json_view(const struct view *view)
{
    const uint64_t *words = view->words;
    json_number("treelings", words[IVLEAGUE_TREELINGS]);
    json_number("domains", words[IVLEAGUE_DOMAINS]);
    json_number("frames", words[IVLEAGUE_FRAMES]);
    json_holes(&view->holes);
    json_number("hand", words[IVLEAGUE_HAND]);
    json_number("domains_live", view->live);
    json_number("treelings_owned", view->treelings);
    json_number("frames_mapped", view->mapped);
    json_number("strays", view->strays);
    json_number("mapped_in_holes", view->in_holes);
    json_number("unknown_formers", view->unknown);
    json_number("other_formers", view->others);
    json_domains(view);
    json_treelings(view);
}

static enum status show(const struct state *state, enum format format)
{
    struct view view;
    bool room = view_open(&view, state->words);
    if (room && format == FORMAT_JSON)
        json_view(&view);
    else if (room)
        print_view(&view);
    enum status status = room ? STATUS_DONE : status_errno("a state");
    view_free(&view);
    return status;
}

/* Prints the guess at words that are no state's, if there is one. */
static void print_guess(const struct state *state, enum format format)
{
    const char *guess = state_guess(state);
    if (*guess != '\0')
        printf(format == FORMAT_JSON ? ",\"guess\":\"%s\"" : "%s\n", guess);
}

static enum status inspect_words(const struct state *state, enum format format)
{
    enum status status = STATUS_DONE;
    uint64_t number = ivleague_audit(state->words, state->length);
    printf(format == FORMAT_JSON ? "{\"audit\":%" PRIu64 ",\"answer\":\"%s\",\"words\":%zu"
                                 : "audit %" PRIu64 ", %s\nwords %zu\n",
           number, ivleague_number_name(number), state->length);
    if (number == IVLEAGUE_DONE || number == IVLEAGUE_REFUSED_AUDIT)
        status = show(state, format);
    else
        print_guess(state, format);
    if (format == FORMAT_JSON)
        puts("}");
    return status == STATUS_DONE && number != IVLEAGUE_DONE ? STATUS_REFUSED : status;
}

enum status inspect(const char *name, enum format format)
{
    struct state state = {0};
    enum status status = state_read(&state, name);
    if (status == STATUS_DONE)
        status = inspect_words(&state, format);
    state_free(&state);
    return status;
}
