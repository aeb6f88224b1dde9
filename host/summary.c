#include "summary.h"

#include "calls.h"

void summary_add(struct summary *summary, const struct batch *batch, bool each)
{
    size_t requests = batch->request_words / IVLEAGUE_REQUEST_WORDS;
    summary->batches++;
    summary->requests += requests;
    for (size_t i = 0; i < requests && each; i++) {
        uint64_t call = batch->requests[IVLEAGUE_REQUEST_WORDS * i + IVLEAGUE_REQUEST_CALL];
        uint64_t number = batch->answers[IVLEAGUE_ANSWER_WORDS * i + IVLEAGUE_ANSWER_NUMBER];
        summary->by_call[is_call(call) ? call : IVLEAGUE_CALLS]++;
        if (number < IVLEAGUE_NUMBERS)
            summary->by_number[number]++;
    }
}

/* Domains that are live, and the pages they have mapped. */
static void add_domains(struct use *use, const uint64_t *state)
{
    const uint64_t *domain = state + state[IVLEAGUE_DOMAINS_START];
    for (uint64_t d = 0; d < state[IVLEAGUE_DOMAINS]; d++, domain += IVLEAGUE_DOMAIN_WORDS) {
        use->domains += domain[IVLEAGUE_DOMAIN_LIVE];
        use->pages += domain[IVLEAGUE_DOMAIN_PAGES];
    }
}

struct use state_use(const uint64_t *state)
{
    struct use use = {0};
    add_domains(&use, state);
    const uint64_t *treeling = state + state[IVLEAGUE_TREELINGS_START];
    for (uint64_t t = 0; t < state[IVLEAGUE_TREELINGS]; t++, treeling += IVLEAGUE_TREELING_WORDS)
        use.treelings += treeling[IVLEAGUE_TREELING_OWNER] != 0;
    return use;
}
