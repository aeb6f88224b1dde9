/* What the words of a state say, sound or not, counted. */
#ifndef VIEW_H
#define VIEW_H

#include <stdbool.h>
#include <stdint.h>

#include "holes.h"

/*
 * A state whose contents are right: its bodies lie within the words. What the bodies' words hold
 * may be anything; none is used as an index unless it is below its limit.
 */
struct view {
    const uint64_t *words;
    uint64_t *pages; /* frames that the leaf map has in each TreeLing */
    uint64_t *owned; /* TreeLings of each domain, by their owner words */
    struct holes holes;
    uint64_t live, treelings, mapped;
    uint64_t strays;   /* leaf map words that name no slot */
    uint64_t in_holes; /* leaf map words of holes that are not 0 */
    uint64_t unknown;  /* former owners that are no domain */
    uint64_t others;   /* owned TreeLings whose former owner is another domain, or none */
};

/* Counts; false without memory. Free it in any case. */
bool view_open(struct view *view, const uint64_t *words);
void view_free(struct view *view);

const uint64_t *domain_record(const struct view *view, uint64_t domain);
const uint64_t *treeling_record(const struct view *view, uint64_t treeling);

/* Whether a domain or a TreeLing has anything to show. */
bool domain_shows(const struct view *view, uint64_t domain);
bool treeling_shows(const struct view *view, uint64_t treeling);

#endif
