#include "view.h"

#include <stdlib.h>

#include "ivleague.h"

const uint64_t *domain_record(const struct view *view, uint64_t domain)
{
    return view->words + view->words[IVLEAGUE_DOMAINS_START] + IVLEAGUE_DOMAIN_WORDS * domain;
}

const uint64_t *treeling_record(const struct view *view, uint64_t treeling)
{
    return view->words + view->words[IVLEAGUE_TREELINGS_START] + IVLEAGUE_TREELING_WORDS * treeling;
}

static void count_frames(struct view *view)
{
    const uint64_t *leaf_map = view->words + view->words[IVLEAGUE_LEAF_MAP_START];
    uint64_t slots = IVLEAGUE_SLOTS * view->words[IVLEAGUE_TREELINGS];
    for (uint64_t frame = 0; frame < view->words[IVLEAGUE_FRAMES]; frame++) {
        uint64_t leaf = leaf_map[frame];
        view->mapped += leaf != 0;
        if (leaf > slots)
            view->strays++;
        else if (leaf != 0)
            view->pages[(leaf - 1) / IVLEAGUE_SLOTS]++;
    }
}

static void count_in_holes(struct view *view)
{
    const struct holes *holes = &view->holes;
    const uint64_t *leaf_map = view->words + view->words[IVLEAGUE_LEAF_MAP_START];
    for (size_t i = 0; i < holes->count; i++) {
        const uint64_t *hole = hole_at(holes, i);
        for (uint64_t frame = 0; frame < hole[IVLEAGUE_HOLE_LENGTH]; frame++)
            view->in_holes += leaf_map[hole[IVLEAGUE_HOLE_FIRST] + frame] != 0;
    }
}

static void count_owners(struct view *view)
{
    for (uint64_t t = 0; t < view->words[IVLEAGUE_TREELINGS]; t++) {
        uint64_t owner = treeling_record(view, t)[IVLEAGUE_TREELING_OWNER];
        view->treelings += owner != 0;
        if (owner != 0 && owner <= view->words[IVLEAGUE_DOMAINS])
            view->owned[owner - 1]++;
    }
}

/* Counts former owners that no sound state has. */
static void count_formers(struct view *view)
{
    for (uint64_t t = 0; t < view->words[IVLEAGUE_TREELINGS]; t++) {
        const uint64_t *record = treeling_record(view, t);
        uint64_t owner = record[IVLEAGUE_TREELING_OWNER], former = record[IVLEAGUE_TREELING_FORMER];
        if (former > view->words[IVLEAGUE_DOMAINS])
            view->unknown++;
        else if (owner != 0 && former != owner)
            view->others++;
    }
}

static void count_live(struct view *view)
{
    for (uint64_t d = 0; d < view->words[IVLEAGUE_DOMAINS]; d++)
        view->live += domain_record(view, d)[IVLEAGUE_DOMAIN_LIVE] != 0;
}

/* Whether any of some words is not 0. */
static bool says(const uint64_t *words, size_t count)
{
    for (size_t i = 0; i < count; i++)
        if (words[i] != 0)
            return true;
    return false;
}

bool domain_shows(const struct view *view, uint64_t domain)
{
    return says(domain_record(view, domain), IVLEAGUE_DOMAIN_WORDS) || view->owned[domain] > 0;
}

bool treeling_shows(const struct view *view, uint64_t treeling)
{
    return says(treeling_record(view, treeling), IVLEAGUE_TREELING_WORDS) ||
           view->pages[treeling] > 0;
}

bool view_open(struct view *view, const uint64_t *words)
{
    *view = (struct view){
        .words = words,
        .pages = calloc(words[IVLEAGUE_TREELINGS], sizeof *view->pages),
        .owned = calloc(words[IVLEAGUE_DOMAINS], sizeof *view->owned),
        .holes = holes_of(words),
    };
    if (!view->pages || !view->owned)
        return false;
    count_frames(view);
    count_in_holes(view);
    count_owners(view);
    count_formers(view);
    count_live(view);
    return true;
}

void view_free(struct view *view)
{
    free(view->pages);
    free(view->owned);
}
