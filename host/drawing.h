/* What the parts of a picture share: picture.c draws the TreeLings, key.c the key. */
#ifndef DRAWING_H
#define DRAWING_H

#include <stdbool.h>
#include <stdio.h>

#include "ivleague.h"

#define UNOWNED "#eceef1"
#define FAINT ".35" /* how much of its look an unowned TreeLing's last holder keeps */

enum {
    MARGIN = 24,
    TITLE = 68, /* height of the title, without the holes */
    BAND = 6,   /* height of a band: that of a look's pattern */
    BLOCK_SLOTS = IVLEAGUE_SLOTS / IVLEAGUE_BLOCKS
};

/* What stands above a TreeLing. Of an unowned one, the domain is the one that held it last. */
enum label {
    LABEL_WORDS,   /* TreeLing 5, domain 38 or was domain 38 */
    LABEL_NUMBERS, /* 5, d38 */
    LABEL_OWNER    /* d38; the number of a row's first TreeLing stands at its left */
};

/* How a TreeLing is drawn: labels, a band for its owner, a square of cells of one or more blocks.
 */
struct tile {
    unsigned most; /* TreeLings */
    unsigned across, cell, gap;
    unsigned text; /* height of the labels */
    enum label label;
};

/* A domain that owns TreeLings. */
struct owner {
    unsigned domain, pages;
};

struct drawing {
    FILE *file;
    const uint64_t *state; /* sound */
    bool key;              /* is drawn */
    unsigned char *pages;  /* mapped in the eight leaf nodes of each block */
    unsigned char *looks;  /* of each domain, + 1; 0 if no TreeLing shows it */
    unsigned given;        /* looks */
    struct owner *owners;  /* by number */
    unsigned count;        /* of owners */
    unsigned formers;      /* unowned TreeLings that a domain held last */
    const struct tile *tile;
    unsigned columns, rows;
    unsigned top; /* where the grid and the key begin */
};

/* The look of a domain that a TreeLing shows. */
static inline unsigned look_of(const struct drawing *drawing, unsigned domain)
{
    return drawing->looks[domain] - 1u;
}

/* The slots of a cell. */
static inline unsigned cell_slots(const struct tile *tile)
{
    return IVLEAGUE_SLOTS / (tile->across * tile->across);
}

static inline unsigned contents_word(const uint64_t *state, enum ivleague_contents word)
{
    return (unsigned)state[word];
}

static inline unsigned domain_word(const uint64_t *state, unsigned domain,
                                   enum ivleague_domain word)
{
    uint64_t record = state[IVLEAGUE_DOMAINS_START] + IVLEAGUE_DOMAIN_WORDS * domain;
    return (unsigned)state[record + word];
}

static inline unsigned treeling_word(const uint64_t *state, unsigned treeling,
                                     enum ivleague_treeling word)
{
    uint64_t record = state[IVLEAGUE_TREELINGS_START] + IVLEAGUE_TREELING_WORDS * treeling;
    return (unsigned)state[record + word];
}

#endif
