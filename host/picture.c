#include "picture.h"

#include <inttypes.h>
#include <stdbool.h>
#include <stdlib.h>

#include "drawing.h"
#include "holes.h"
#include "key.h"
#include "look.h"
#include "output.h"
#include "summary.h"

/* The width that a picture has at most, which is that of a page, unless the title needs more. */
enum { PAGE = 1040, LEAST_WIDTH = 520 };

/* How the holes stand below the title. */
enum { HOLES_A_LINE = 4, HOLES_LINE = 20 };

static const struct tile tiles[] = {
    {4, 8, 28, 24, 13, LABEL_WORDS},    {24, 8, 16, 18, 11, LABEL_NUMBERS},
    {64, 8, 10, 12, 11, LABEL_NUMBERS}, {256, 8, 7, 9, 10, LABEL_NUMBERS},
    {1024, 4, 7, 6, 9, LABEL_OWNER},    {IVLEAGUE_MOST_TREELINGS, 2, 12, 6, 8, LABEL_OWNER},
};

/* Counts each block's pages by the leaf map. */
static void count_pages(struct drawing *drawing)
{
    const uint64_t *leaf_map = drawing->state + drawing->state[IVLEAGUE_LEAF_MAP_START];
    for (uint64_t frame = 0; frame < drawing->state[IVLEAGUE_FRAMES]; frame++)
        if (leaf_map[frame] != 0)
            drawing->pages[(leaf_map[frame] - 1) / BLOCK_SLOTS]++;
}

/* Gives a domain a look, unless it has one: that of its number, or the next one if the board has
 * more domains than there are looks. */
static void give_look(struct drawing *drawing, unsigned domain)
{
    if (drawing->looks[domain] != 0)
        return;
    unsigned domains = contents_word(drawing->state, IVLEAGUE_DOMAINS);
    unsigned look = domains <= LOOKS ? domain : drawing->given % LOOKS;
    drawing->looks[domain] = (unsigned char)(look + 1);
    drawing->given++;
}

/* Finds the domains that own TreeLings. */
static void find_owners(struct drawing *drawing)
{
    const uint64_t *state = drawing->state;
    for (unsigned domain = 0; domain < contents_word(state, IVLEAGUE_DOMAINS); domain++) {
        if (domain_word(state, domain, IVLEAGUE_DOMAIN_FIRST) == 0)
            continue;
        give_look(drawing, domain);
        drawing->owners[drawing->count++] =
            (struct owner){domain, domain_word(state, domain, IVLEAGUE_DOMAIN_PAGES)};
    }
}

/* Finds the unowned TreeLings that a domain held last. Owners have their looks before. */
static void find_formers(struct drawing *drawing)
{
    const uint64_t *state = drawing->state;
    for (unsigned t = 0; t < contents_word(state, IVLEAGUE_TREELINGS); t++) {
        unsigned former = treeling_word(state, t, IVLEAGUE_TREELING_FORMER);
        if (former == 0 || treeling_word(state, t, IVLEAGUE_TREELING_OWNER) != 0)
            continue;
        give_look(drawing, former - 1);
        drawing->formers++;
    }
}

static unsigned side(const struct tile *tile)
{
    return tile->across * tile->cell;
}

static unsigned pitch(const struct tile *tile)
{
    return side(tile) + tile->gap;
}

/* The labels' line, above the cells and the band. */
static unsigned label_line(const struct tile *tile)
{
    return BAND + 2 + tile->text / 3;
}

static unsigned head_room(const struct tile *tile)
{
    return label_line(tile) + tile->text;
}

static unsigned row_pitch(const struct tile *tile)
{
    return head_room(tile) + pitch(tile);
}

static const struct tile *choose_tile(unsigned treelings)
{
    const struct tile *tile = tiles;
    while (tile->most < treelings)
        tile++;
    return tile;
}

/* Places that the last row of a grid leaves empty. */
static unsigned left_over(unsigned treelings, unsigned columns)
{
    return (columns - treelings % columns) % columns;
}

/* A grid that is as wide as high or up to half as much again, with the last row as full as can be;
 * but no wider than so many columns. */
static unsigned choose_columns(unsigned treelings, unsigned most)
{
    unsigned least = 1;
    while (least * least < treelings && least < most)
        least++;
    unsigned best = least;
    for (unsigned columns = least; 4 * columns * columns <= 9 * treelings && columns <= most;
         columns++)
        if (left_over(treelings, columns) < left_over(treelings, best))
            best = columns;
    return best;
}

static void lay_out(struct drawing *drawing)
{
    unsigned treelings = contents_word(drawing->state, IVLEAGUE_TREELINGS);
    drawing->tile = choose_tile(treelings);
    drawing->columns = choose_columns(treelings, (PAGE - 3 * MARGIN) / pitch(drawing->tile));
    drawing->rows = (treelings + drawing->columns - 1) / drawing->columns;
    unsigned holes = contents_word(drawing->state, IVLEAGUE_HOLES);
    drawing->top = TITLE + (holes + HOLES_A_LINE - 1) / HOLES_A_LINE * HOLES_LINE;
}

static unsigned grid_left(const struct drawing *drawing)
{
    return drawing->tile->label == LABEL_OWNER ? 2 * MARGIN : MARGIN;
}

static void draw_cell(const struct drawing *drawing, unsigned cell, const char *rest)
{
    const struct tile *tile = drawing->tile;
    unsigned inner = tile->cell - 1;
    fprintf(drawing->file, "<rect x='%u' y='%u' width='%u' height='%u'%s/>",
            cell % tile->across * tile->cell, cell / tile->across * tile->cell, inner, inner, rest);
}

/* The pages of some blocks, from a TreeLing's block on. */
static unsigned sum_pages(const struct drawing *drawing, unsigned treeling, unsigned block,
                          unsigned count)
{
    const unsigned char *pages = drawing->pages + IVLEAGUE_BLOCKS * treeling + block;
    unsigned sum = 0;
    for (unsigned i = 0; i < count; i++)
        sum += pages[i];
    return sum;
}

static void draw_cells(const struct drawing *drawing, unsigned treeling)
{
    unsigned slots = cell_slots(drawing->tile);
    unsigned blocks = slots / BLOCK_SLOTS;
    for (unsigned cell = 0; cell < IVLEAGUE_BLOCKS / blocks; cell++) {
        char rest[40];
        unsigned pages = sum_pages(drawing, treeling, blocks * cell, blocks);
        snprintf(rest, sizeof rest, " fill-opacity='.%u'", key_darkness(pages, slots));
        draw_cell(drawing, cell, rest);
    }
}

static void draw_head(const struct drawing *drawing, unsigned treeling, unsigned domain)
{
    unsigned blocks = cell_slots(drawing->tile) / BLOCK_SLOTS;
    if (domain_word(drawing->state, domain, IVLEAGUE_DOMAIN_HEAD_TREELING) != treeling + 1)
        return;
    unsigned block = domain_word(drawing->state, domain, IVLEAGUE_DOMAIN_HEAD_BLOCK);
    draw_cell(drawing, block / blocks, " class='halo'");
    draw_cell(drawing, block / blocks, " class='head'");
}

static void draw_band(const struct drawing *drawing, unsigned domain, const char *rest)
{
    fprintf(drawing->file,
            "<rect transform='translate(0,-%d)' width='%u' height='%d' fill='url(#look%u)'%s/>",
            BAND + 2, side(drawing->tile) - 1, BAND, look_of(drawing, domain), rest);
}

/* The domain above the band, at the right. */
static void draw_domain(const struct drawing *drawing, unsigned domain, bool former)
{
    const struct tile *tile = drawing->tile;
    const char *words = former ? "was domain " : "domain ";
    fprintf(drawing->file, "<text x='%u' y='-%u' class='label%s' text-anchor='end'>%s%u</text>",
            side(tile) - 1, label_line(tile), former ? " former" : "",
            tile->label == LABEL_WORDS ? words : "d", domain);
}

static void draw_owned(const struct drawing *drawing, unsigned treeling, unsigned domain)
{
    FILE *file = drawing->file;
    unsigned rank = treeling_word(drawing->state, treeling, IVLEAGUE_TREELING_RANK);
    unsigned pages = sum_pages(drawing, treeling, 0, IVLEAGUE_BLOCKS);
    fprintf(file, " data-owner='%u' data-rank='%u' data-pages='%u' fill='%s'>", domain, rank, pages,
            look_colour(look_of(drawing, domain)));
    fprintf(file, "<title>TreeLing %u: domain %u, rank %u, %u of %d pages</title>", treeling,
            domain, rank, pages, IVLEAGUE_SLOTS);
    draw_band(drawing, domain, "");
    draw_cells(drawing, treeling);
    draw_head(drawing, treeling, domain);
    draw_domain(drawing, domain, false);
}

/* What an unowned TreeLing shows of the domain that held it last. */
static void draw_former(const struct drawing *drawing, unsigned treeling, unsigned domain)
{
    fprintf(drawing->file,
            " data-former='%u'><title>TreeLing %u: unowned, last held by domain %u</title>", domain,
            treeling, domain);
    draw_band(drawing, domain, " opacity='" FAINT "'");
    draw_domain(drawing, domain, true);
}

static void draw_unowned(const struct drawing *drawing, unsigned treeling)
{
    unsigned edge = side(drawing->tile) - 1;
    unsigned former = treeling_word(drawing->state, treeling, IVLEAGUE_TREELING_FORMER);
    if (former > 0)
        draw_former(drawing, treeling, former - 1);
    else
        fprintf(drawing->file, "><title>TreeLing %u: unowned</title>", treeling);
    fprintf(drawing->file, "<rect width='%u' height='%u' fill='" UNOWNED "'/>", edge, edge);
}

/* The TreeLing's number: above it, or at the left of the row that it begins. */
static void draw_number(const struct drawing *drawing, unsigned treeling)
{
    const struct tile *tile = drawing->tile;
    if (tile->label != LABEL_OWNER)
        fprintf(drawing->file, "<text y='-%u' class='label'>%s%u</text>", label_line(tile),
                tile->label == LABEL_WORDS ? "TreeLing " : "", treeling);
    else if (treeling % drawing->columns == 0)
        fprintf(drawing->file, "<text x='-8' y='%u' class='label' text-anchor='end'>%u</text>",
                (side(tile) + tile->text) / 2, treeling);
}

static void draw_treeling(const struct drawing *drawing, unsigned treeling)
{
    const struct tile *tile = drawing->tile;
    unsigned owner = treeling_word(drawing->state, treeling, IVLEAGUE_TREELING_OWNER);
    fprintf(drawing->file, "<g transform='translate(%u,%u)' data-treeling='%u'",
            grid_left(drawing) + treeling % drawing->columns * pitch(tile),
            drawing->top + head_room(tile) + treeling / drawing->columns * row_pitch(tile),
            treeling);
    if (owner > 0)
        draw_owned(drawing, treeling, owner - 1);
    else
        draw_unowned(drawing, treeling);
    draw_number(drawing, treeling);
    fputs("</g>\n", drawing->file);
}

static void draw_frame(const struct drawing *drawing, unsigned width, unsigned height)
{
    bool large = side(drawing->tile) >= 80;
    fprintf(drawing->file,
            "<svg xmlns='http://www.w3.org/2000/svg' width='%u' height='%u' "
            "viewBox='0 0 %u %u' font-family='sans-serif' font-size='13' fill='#222'>\n"
            "<style>.head{fill:none;stroke:#111;stroke-width:%s}"
            ".halo{fill:none;stroke:#fff;stroke-width:%s}"
            ".label{fill:#444;font-size:%upx}.former{fill:#999;font-style:italic}"
            ".dim{fill:#777}</style>\n"
            "<rect width='100%%' height='100%%' fill='#fff'/>\n",
            width, height, width, height, large ? "2" : "1.4", large ? "4" : "3",
            drawing->tile->text);
}

/* Defines each look that is used once. */
static void draw_looks(const struct drawing *drawing)
{
    bool used[LOOKS] = {false};
    for (unsigned domain = 0; domain < contents_word(drawing->state, IVLEAGUE_DOMAINS); domain++)
        if (drawing->looks[domain] != 0)
            used[look_of(drawing, domain)] = true;
    fputs("<defs>\n", drawing->file);
    for (unsigned look = 0; look < LOOKS; look++)
        if (used[look])
            look_define(drawing->file, look);
    fputs("</defs>\n", drawing->file);
}

static void draw_title(const struct drawing *drawing)
{
    const uint64_t *state = drawing->state;
    struct use use = state_use(state);
    fprintf(drawing->file,
            "<text x='%d' y='32' font-size='18' font-weight='bold'>%u of %u TreeLings owned"
            "</text>\n<text x='%d' y='52' class='dim'>%u of %u domains live, %u of %u page frames "
            "mapped</text>\n",
            MARGIN, (unsigned)use.treelings, contents_word(state, IVLEAGUE_TREELINGS), MARGIN,
            (unsigned)use.domains, contents_word(state, IVLEAGUE_DOMAINS), (unsigned)use.pages,
            contents_word(state, IVLEAGUE_FRAMES));
}

/* A hole's frames, and what stands between it and the next one. */
static void draw_hole(FILE *file, const uint64_t *hole, bool last)
{
    uint64_t first = hole[IVLEAGUE_HOLE_FIRST], length = hole[IVLEAGUE_HOLE_LENGTH];
    fprintf(file, "%" PRIu64, first);
    if (length > 1)
        fprintf(file, "&#8211;%" PRIu64, first + length - 1);
    fputs(last ? "" : ", ", file);
}

/* The holes, a few on a line; their words are in data-holes as a log has them. */
static void draw_holes(const struct drawing *drawing)
{
    FILE *file = drawing->file;
    struct holes holes = holes_of(drawing->state);
    if (holes.count == 0)
        return;
    fputs("<g class='dim' data-holes='", file);
    for (size_t i = 0; i < IVLEAGUE_HOLE_WORDS * holes.count; i++)
        fprintf(file, "%s%" PRIu64, i > 0 ? " " : "", holes.words[i]);
    fputs("'>", file);
    for (size_t i = 0; i < holes.count; i++) {
        bool ends = i + 1 == holes.count || (i + 1) % HOLES_A_LINE == 0;
        if (i % HOLES_A_LINE == 0)
            fprintf(file, "<text x='%d' y='%zu'>%s", MARGIN, 72 + i / HOLES_A_LINE * HOLES_LINE,
                    i == 0 ? "holes: frames " : "");
        draw_hole(file, hole_at(&holes, i), i + 1 == holes.count);
        fputs(ends ? "</text>" : "", file);
    }
    fputs("</g>\n", file);
}

/* The width and the height of the picture, with the key where it has room: beside the grid, or
 * beneath it if that would be wider than a page. */
static struct key lay_out_key(const struct drawing *drawing, unsigned *width, unsigned *height)
{
    unsigned right = grid_left(drawing) + drawing->columns * pitch(drawing->tile);
    unsigned grid = drawing->rows * row_pitch(drawing->tile);
    struct key key = {0};
    *width = right + MARGIN > LEAST_WIDTH ? right + MARGIN : LEAST_WIDTH;
    *height = drawing->top + grid + MARGIN;
    if (!drawing->key)
        return key;
    key = key_beside(drawing, right + MARGIN, grid);
    if (key.left + key.width <= PAGE) {
        *width = key.left + key.width;
        *height = drawing->top + (grid > key.height ? grid : key.height) + MARGIN;
        return key;
    }
    key = key_beneath(drawing, *height + MARGIN, right);
    *width = MARGIN + key.width > *width ? MARGIN + key.width : *width;
    *height = key.top + key.height + MARGIN;
    return key;
}

static void draw(const struct drawing *drawing)
{
    unsigned width, height;
    struct key key = lay_out_key(drawing, &width, &height);
    draw_frame(drawing, width, height);
    draw_looks(drawing);
    draw_title(drawing);
    draw_holes(drawing);
    for (unsigned t = 0; t < contents_word(drawing->state, IVLEAGUE_TREELINGS); t++)
        draw_treeling(drawing, t);
    if (drawing->key)
        key_draw(drawing, &key);
    fputs("</svg>\n", drawing->file);
}

static enum status draw_to(struct drawing *drawing, const char *name)
{
    struct output output;
    enum status status = output_open(&output, name);
    if (status != STATUS_DONE)
        return status;
    drawing->file = output.file;
    count_pages(drawing);
    find_owners(drawing);
    find_formers(drawing);
    lay_out(drawing);
    draw(drawing);
    return output_close(&output);
}

enum status picture_save(const uint64_t *state, const char *name, bool key)
{
    struct drawing drawing = {
        .state = state,
        .key = key,
        .pages = calloc(state[IVLEAGUE_TREELINGS], IVLEAGUE_BLOCKS),
        .looks = calloc(state[IVLEAGUE_DOMAINS], sizeof *drawing.looks),
        .owners = calloc(state[IVLEAGUE_DOMAINS], sizeof *drawing.owners),
    };
    bool room = drawing.pages && drawing.looks && drawing.owners;
    enum status status = room ? draw_to(&drawing, name) : status_errno(name);
    free(drawing.pages);
    free(drawing.looks);
    free(drawing.owners);
    return status;
}
