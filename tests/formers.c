/*
 * Former owners, on every board of up to three TreeLings, three domains and a frame for each. The
 * domains open, map their frame, unmap it, are trimmed and close, in any order and as often as they
 * like: a plain model finds every state that this leads to. From each of them every such request is
 * served, and the answer and every word that it leaves are the model's. Then each former owner is
 * changed to each number, and the audit passes it just where the header says that it may stand.
 */
#include <inttypes.h>
#include <stdbool.h>
#include <stdio.h>
#include <string.h>

#include "ivleague.h"

enum {
    MOST = 3, /* TreeLings, domains and frames */
    WORDS = 25 + 6 * MOST + 517 * MOST + MOST,
    KEYS = MOST << (2 * MOST + 4 * MOST)
};

/* A state. A domain that has mapped its frame owns one TreeLing, where the page has slot 0. It owns
 * that until it is closed, or trimmed without the page. */
struct model {
    unsigned char hand;
    unsigned char live[MOST], mapped[MOST];  /* of each domain */
    unsigned char owner[MOST], former[MOST]; /* of each TreeLing: domain + 1 */
};

static uint64_t treelings, domains;
static struct model found[KEYS];
static size_t count; /* of states found */
static bool seen[KEYS];

static size_t length(void)
{
    return (size_t)ivleague_state_words(treelings, domains, domains);
}

/* A number that no other state has. */
static size_t key(const struct model *model)
{
    size_t number = model->hand;
    for (size_t i = 0; i < MOST; i++) {
        number = (number * 2 + model->live[i]) * 2 + model->mapped[i];
        number = (number * 4 + model->owner[i]) * 4 + model->former[i];
    }
    return number;
}

static void find(const struct model *model)
{
    if (seen[key(model)])
        return;
    seen[key(model)] = true;
    found[count++] = *model;
}

/* The TreeLing that a domain owns, or the number after the last. */
static uint64_t own(const struct model *model, uint64_t domain)
{
    uint64_t t = 0;
    while (t < treelings && model->owner[t] != domain + 1)
        t++;
    return t;
}

/* The TreeLing that a domain takes: from the hand around the first unowned one that it owned last,
 * or else the first unowned one; the number after the last if there is none. */
static uint64_t choose(const struct model *model, uint64_t domain)
{
    for (int any = 0; any <= 1; any++)
        for (uint64_t i = 0; i < treelings; i++) {
            uint64_t t = (model->hand + i) % treelings;
            if (model->owner[t] == 0 && (any || model->former[t] == domain + 1))
                return t;
        }
    return treelings;
}

static void take(struct model *model, uint64_t domain, uint64_t treeling)
{
    model->owner[treeling] = model->former[treeling] = (unsigned char)(domain + 1);
    model->hand = (unsigned char)((treeling + 1) % treelings);
}

static uint64_t map_frame(struct model *model, uint64_t domain, uint64_t *answer)
{
    uint64_t t = own(model, domain);
    if (!model->live[domain])
        return IVLEAGUE_REFUSED_NOT_LIVE;
    if (model->mapped[domain])
        return IVLEAGUE_REFUSED_MAPPED;
    if (t == treelings) {
        t = choose(model, domain);
        if (t == treelings)
            return IVLEAGUE_REFUSED_NO_PLACE;
        take(model, domain, t);
    }
    model->mapped[domain] = 1;
    for (uint64_t level = 0; level < 4; level++)
        answer[IVLEAGUE_ANSWER_LEVEL_1 + level] = t << 3 * level;
    answer[IVLEAGUE_ANSWER_PAGES] = 1;
    return IVLEAGUE_DONE;
}

static uint64_t unmap_frame(struct model *model, uint64_t domain, uint64_t *answer)
{
    if (!model->live[domain])
        return IVLEAGUE_REFUSED_NOT_LIVE;
    if (!model->mapped[domain])
        return IVLEAGUE_REFUSED_NOT_MAPPED;
    model->mapped[domain] = 0;
    answer[IVLEAGUE_ANSWER_PAGES] = 1;
    return IVLEAGUE_DONE;
}

/* Gives a domain's TreeLing back, if it has one; whether it had. */
static bool give_back(struct model *model, uint64_t domain)
{
    uint64_t t = own(model, domain);
    if (t < treelings)
        model->owner[t] = 0;
    return t < treelings;
}

static uint64_t trim_domain(struct model *model, uint64_t domain, uint64_t *answer)
{
    if (!model->live[domain])
        return IVLEAGUE_REFUSED_NOT_LIVE;
    answer[IVLEAGUE_TRIM_RETURNED] = !model->mapped[domain] && give_back(model, domain);
    return IVLEAGUE_DONE;
}

static uint64_t close_domain(struct model *model, uint64_t domain, uint64_t *answer)
{
    if (!model->live[domain])
        return IVLEAGUE_REFUSED_NOT_LIVE;
    answer[IVLEAGUE_ANSWER_PAGES] = model->mapped[domain];
    model->live[domain] = model->mapped[domain] = 0;
    give_back(model, domain);
    return IVLEAGUE_DONE;
}

static uint64_t open_domain(struct model *model, uint64_t domain)
{
    if (model->live[domain])
        return IVLEAGUE_REFUSED_LIVE;
    model->live[domain] = 1;
    return IVLEAGUE_DONE;
}

/* Changes what a request changes and fills its answer, but for the number, which it returns. */
static uint64_t serve(struct model *model, const uint64_t *request, uint64_t *answer)
{
    uint64_t domain = request[IVLEAGUE_REQUEST_DOMAIN];
    switch (request[IVLEAGUE_REQUEST_CALL]) {
    case IVLEAGUE_OPEN:
        return open_domain(model, domain);
    case IVLEAGUE_CLOSE:
        return close_domain(model, domain, answer);
    case IVLEAGUE_MAP:
        return map_frame(model, domain, answer);
    case IVLEAGUE_UNMAP:
        return unmap_frame(model, domain, answer);
    default:
        return trim_domain(model, domain, answer);
    }
}

/* The same with the whole answer. */
static void step(struct model *model, const uint64_t *request, uint64_t *answer)
{
    memset(answer, 0, IVLEAGUE_ANSWER_WORDS * sizeof *answer);
    answer[IVLEAGUE_ANSWER_NUMBER] = serve(model, request, answer);
}

static uint64_t *treeling_record(uint64_t *words, uint64_t treeling)
{
    return words + 25 + 6 * domains + 5 * treeling;
}

/* The words of a domain and of the TreeLing that it owns, with its page or without. */
static void write_owned(uint64_t *words, uint64_t domain, uint64_t treeling, bool mapped)
{
    uint64_t *record = words + 25 + 6 * domain;
    uint64_t *entries = words + 25 + 6 * domains + 5 * treelings + 512 * treeling;
    record[IVLEAGUE_DOMAIN_FIRST] = record[IVLEAGUE_DOMAIN_LAST] = treeling + 1;
    record[IVLEAGUE_DOMAIN_HEAD_TREELING] = treeling + 1;
    record[IVLEAGUE_DOMAIN_PAGES] = mapped;
    treeling_record(words, treeling)[IVLEAGUE_TREELING_OWNER] = domain + 1;
    for (uint64_t k = 0; k < 512; k++)
        entries[k] = 256 * (512 * treeling + k) + (mapped && k == 0 ? 254 : 255);
    words[25 + 6 * domains + 517 * treelings + domain] = mapped ? 4096 * treeling + 1 : 0;
}

static void write_contents(uint64_t *words, uint64_t hand)
{
    words[IVLEAGUE_TREELINGS] = treelings;
    words[IVLEAGUE_DOMAINS] = words[IVLEAGUE_FRAMES] = domains;
    words[IVLEAGUE_HAND] = hand;
    words[IVLEAGUE_DOMAINS_START] = 25;
    words[IVLEAGUE_TREELINGS_START] = 25 + 6 * domains;
    words[IVLEAGUE_NFL_START] = 25 + 6 * domains + 5 * treelings;
    words[IVLEAGUE_LEAF_MAP_START] = 25 + 6 * domains + 517 * treelings;
}

static void write_words(const struct model *model, uint64_t *words)
{
    memset(words, 0, WORDS * sizeof *words);
    write_contents(words, model->hand);
    for (uint64_t d = 0; d < domains; d++)
        words[25 + 6 * d + IVLEAGUE_DOMAIN_LIVE] = model->live[d];
    for (uint64_t t = 0; t < treelings; t++) {
        treeling_record(words, t)[IVLEAGUE_TREELING_FORMER] = model->former[t];
        if (model->owner[t] > 0)
            write_owned(words, model->owner[t] - 1u, t, model->mapped[model->owner[t] - 1]);
    }
}

/* Whether a request from a state is answered as it should be, and leaves the right words. */
static bool serves(const struct model *model, const uint64_t *request)
{
    struct model after = *model;
    uint64_t words[WORDS], expected_words[WORDS];
    uint64_t answer[IVLEAGUE_ANSWER_WORDS], expected[IVLEAGUE_ANSWER_WORDS];
    step(&after, request, expected);
    find(&after);
    write_words(model, words);
    write_words(&after, expected_words);
    return ivleague_serve(words, length(), request, IVLEAGUE_REQUEST_WORDS, answer,
                          IVLEAGUE_ANSWER_WORDS) == IVLEAGUE_DONE &&
           memcmp(answer, expected, sizeof answer) == 0 &&
           memcmp(words, expected_words, sizeof words) == 0;
}

static bool serves_all(const struct model *model)
{
    static const uint64_t calls[] = {IVLEAGUE_OPEN, IVLEAGUE_CLOSE, IVLEAGUE_MAP, IVLEAGUE_UNMAP,
                                     IVLEAGUE_TRIM};
    for (uint64_t domain = 0; domain < domains; domain++)
        for (size_t i = 0; i < sizeof calls / sizeof *calls; i++) {
            bool names = calls[i] == IVLEAGUE_MAP || calls[i] == IVLEAGUE_UNMAP;
            uint64_t frame = names ? domain : 0;
            uint64_t request[IVLEAGUE_REQUEST_WORDS] = {calls[i], domain, frame};
            if (!serves(model, request))
                return false;
        }
    return true;
}

/* Whether a former owner may stand at a TreeLing: its owner, or any domain or none if unowned. */
static bool allowed(const struct model *model, uint64_t treeling, uint64_t former)
{
    uint64_t owner = model->owner[treeling];
    return owner > 0 ? former == owner : former <= domains;
}

static bool audits(const struct model *model)
{
    uint64_t words[WORDS];
    write_words(model, words);
    for (uint64_t t = 0; t < treelings; t++) {
        uint64_t *former = treeling_record(words, t) + IVLEAGUE_TREELING_FORMER;
        for (uint64_t i = 0; i <= domains + 2; i++) {
            *former = i <= domains + 1 ? i : UINT64_MAX;
            if (ivleague_audit(words, length()) !=
                (allowed(model, t, *former) ? IVLEAGUE_DONE : IVLEAGUE_REFUSED_AUDIT))
                return false;
        }
        *former = model->former[t];
    }
    return true;
}

/* Whether a board is right, from a new state to every one that it leads to. */
static bool right(void)
{
    static const struct model new_state;
    uint64_t words[WORDS] = {0}, made[WORDS] = {0};
    count = 0;
    memset(seen, 0, sizeof seen);
    find(&new_state);
    write_words(&new_state, words);
    bool good = ivleague_make(treelings, domains, domains, words, 0, made, length()) == 0 &&
                memcmp(words, made, sizeof words) == 0;
    for (size_t i = 0; good && i < count; i++)
        good = serves_all(&found[i]) && audits(&found[i]);
    return good;
}

int main(void)
{
    size_t states = 0;
    for (treelings = 1; treelings <= MOST; treelings++)
        for (domains = 1; domains <= MOST; domains++, states += count)
            if (!right()) {
                fprintf(stderr, "formers: %" PRIu64 " TreeLings, %" PRIu64 " domains: wrong\n",
                        treelings, domains);
                return 1;
            }
    printf("former owners: every request from each of %zu states as it should be\n", states);
    return 0;
}
