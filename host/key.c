#include "key.h"

#include <stdbool.h>

#include "look.h"
#include "summary.h"

/* A band above a square, both as an unowned TreeLing has them. */
#define FORMER_MARK                                                                                \
    "<rect width='15' height='5' fill='#3d4650' opacity='" FAINT "'/>"                             \
    "<rect y='7' width='15' height='8' fill='" UNOWNED "'/>"

enum {
    ROW = 20,
    CLOSE_ROW = 15,
    LEAST_ROWS = 20,
    NOTE = 24,
    NOTES = 7, /* at most */
    NOTES_WIDTH = 380,
    NOTE_TEXT = 106,
    PAGES_END = 124,
    CHAIN = 142,
    PARTS = 3,       /* of a chain, that are shown */
    FULL_ROWS = 120, /* owners, with more of which no chains are shown */
    DIGIT = 8        /* width */
};

static bool has_chains(const struct drawing *drawing)
{
    return drawing->count <= FULL_ROWS;
}

static unsigned digits(unsigned number)
{
    unsigned count = 1;
    for (; number >= 10; number /= 10)
        count++;
    return count;
}

static unsigned column_width(const struct drawing *drawing)
{
    unsigned most = contents_word(drawing->state, IVLEAGUE_TREELINGS) - 1;
    return has_chains(drawing) ? CHAIN + PARTS * (2 * digits(most) + 2) * DIGIT + MARGIN
                               : PAGES_END + MARGIN;
}

/* Lines of a key without chains, which may be thousands, are close. */
static unsigned row_height(const struct drawing *drawing)
{
    return has_chains(drawing) ? ROW : CLOSE_ROW;
}

/* A key of so many columns. */
static struct key lay_out(const struct drawing *drawing, unsigned columns)
{
    unsigned rows = (drawing->count + columns - 1) / columns;
    unsigned width = columns * column_width(drawing);
    return (struct key){
        .rows = rows,
        .width = width > NOTES_WIDTH ? width : NOTES_WIDTH,
        .height = (rows + 3) * row_height(drawing) + NOTE * NOTES,
    };
}

struct key key_beside(const struct drawing *drawing, unsigned left, unsigned height)
{
    unsigned notes = 3 * ROW + NOTE * NOTES;
    unsigned fitting = height > notes ? (height - notes) / ROW : 0;
    unsigned most = fitting > LEAST_ROWS ? fitting : LEAST_ROWS;
    struct key key =
        lay_out(drawing, drawing->count > most ? (drawing->count + most - 1) / most : 1);
    key.left = left;
    key.top = drawing->top;
    return key;
}

struct key key_beneath(const struct drawing *drawing, unsigned top, unsigned width)
{
    unsigned columns = width / column_width(drawing);
    struct key key = lay_out(drawing, columns > 0 ? columns : 1);
    key.left = MARGIN;
    key.top = top;
    return key;
}

unsigned key_darkness(unsigned pages, unsigned most)
{
    return pages == 0 ? 14 : 30 + 69 * pages / most;
}

/* The link to the last of the TreeLings that follow each other by number as they do by rank. */
static unsigned run_end(const uint64_t *state, unsigned link)
{
    while (treeling_word(state, link - 1, IVLEAGUE_TREELING_NEXT) == link + 1)
        link++;
    return link;
}

/* A domain's TreeLings by rank, the first ones. */
static void draw_chain(const struct drawing *drawing, unsigned domain)
{
    const uint64_t *state = drawing->state;
    unsigned link = domain_word(state, domain, IVLEAGUE_DOMAIN_FIRST);
    for (unsigned part = 0; part < PARTS && link != 0; part++) {
        unsigned last = run_end(state, link);
        fprintf(drawing->file, "%s%u", part > 0 ? ", " : "", link - 1);
        if (last != link)
            fprintf(drawing->file, "&#8211;%u", last - 1);
        link = treeling_word(state, last - 1, IVLEAGUE_TREELING_NEXT);
    }
    fputs(link != 0 ? ", &#8230;" : "", drawing->file);
}

static void draw_row(const struct drawing *drawing, const struct owner *owner, unsigned x,
                     unsigned y)
{
    FILE *file = drawing->file;
    unsigned look = look_of(drawing, owner->domain);
    fprintf(file,
            "<g transform='translate(%u,%u)' data-domain='%u' data-pages='%u'>"
            "<rect width='30' height='12' fill='url(#look%u)'/><text x='40' y='11'>%u</text>"
            "<text x='%d' y='11' text-anchor='end'>%u</text>",
            x, y, owner->domain, owner->pages, look, owner->domain, PAGES_END, owner->pages);
    if (has_chains(drawing)) {
        fprintf(file, "<text x='%d' y='11'>", CHAIN);
        draw_chain(drawing, owner->domain);
        fputs("</text>", file);
    }
    fputs("</g>\n", file);
}

static void draw_heading(const struct drawing *drawing, unsigned x, unsigned y)
{
    fprintf(drawing->file,
            "<g transform='translate(%u,%u)' class='dim'><text>domain</text>"
            "<text x='%d' text-anchor='end'>pages</text>",
            x, y + 12, PAGES_END);
    if (has_chains(drawing))
        fprintf(drawing->file, "<text x='%d'>TreeLings by rank</text>", CHAIN);
    fputs("</g>\n", drawing->file);
}

static void draw_columns(const struct drawing *drawing, const struct key *key)
{
    for (unsigned i = 0; i < drawing->count; i++) {
        unsigned x = key->left + i / key->rows * column_width(drawing);
        if (i % key->rows == 0)
            draw_heading(drawing, x, key->top);
        draw_row(drawing, &drawing->owners[i], x,
                 key->top + ROW + i % key->rows * row_height(drawing));
    }
}

static void draw_ramp(const struct drawing *drawing)
{
    for (unsigned i = 0; i <= 5; i++)
        fprintf(drawing->file,
                "<rect x='%u' width='15' height='15' fill='#3d4650' fill-opacity='.%u'/>", 16 * i,
                key_darkness(i, 5));
    fprintf(drawing->file, "<text x='%d' y='12'>pages mapped in a cell: 0 to %u</text>", NOTE_TEXT,
            cell_slots(drawing->tile));
}

/* The next note, below place others: a mark, and what it means. */
static void draw_note(FILE *file, unsigned *place, const char *mark, const char *meaning)
{
    fprintf(file, "<g transform='translate(0,%u)'>%s<text x='%d' y='12'>%s</text></g>",
            (*place)++ * NOTE, mark, NOTE_TEXT, meaning);
}

static void draw_former_note(const struct drawing *drawing, unsigned *place)
{
    bool words = drawing->tile->label == LABEL_WORDS;
    draw_note(drawing->file, place,
              words ? FORMER_MARK : FORMER_MARK "<text x='22' y='12' class='former'>d38</text>",
              words ? "unowned, last held by that domain" : "unowned, last held by domain 38");
}

/* What the labels mean that are no words. */
static void draw_label_notes(const struct drawing *drawing, unsigned *place)
{
    FILE *file = drawing->file;
    if (drawing->tile->label == LABEL_NUMBERS)
        draw_note(file, place, "<text y='12'>5 &#160; d38</text>",
                  "TreeLing 5, owned by domain 38");
    if (drawing->tile->label == LABEL_OWNER) {
        draw_note(file, place, "<text y='12'>d38</text>", "owned by domain 38");
        draw_note(file, place, "<text y='12'>64, at the left</text>",
                  "number of the row's first TreeLing");
    }
}

static void draw_notes(const struct drawing *drawing, unsigned x, unsigned y)
{
    FILE *file = drawing->file;
    unsigned place = 1;
    fprintf(file, "<g transform='translate(%u,%u)'>", x, y);
    draw_ramp(drawing);
    draw_note(file, &place, "<rect x='1' y='1' width='13' height='13' class='head'/>",
              "cell that has the domain's head block");
    draw_label_notes(drawing, &place);
    draw_note(file, &place, "<rect width='15' height='15' fill='" UNOWNED "'/>",
              "unowned TreeLing");
    if (drawing->formers > 0)
        draw_former_note(drawing, &place);
    if (drawing->given > LOOKS)
        draw_note(file, &place, "", "colours and patterns recur; the numbers tell");
    fputs("</g>\n", file);
}

/* Live domains that no TreeLing shows. */
static void draw_others(const struct drawing *drawing, const struct key *key)
{
    unsigned live = (unsigned)state_use(drawing->state).domains;
    if (live > drawing->count)
        fprintf(drawing->file,
                "<text x='%u' y='%u' class='dim'>and %u live without TreeLings</text>\n", key->left,
                key->top + ROW + key->rows * row_height(drawing) + 12, live - drawing->count);
}

void key_draw(const struct drawing *drawing, const struct key *key)
{
    draw_columns(drawing, key);
    draw_others(drawing, key);
    draw_notes(drawing, key->left, key->top + (key->rows + 3) * row_height(drawing));
}
