/*
 * The IvLeague domain controller, proved: its functions for a host in C.
 *
 * A state is one buffer of 64-bit words. The host keeps it and lends it to
 * one function at a time; the library keeps nothing, takes no memory but
 * stack, and needs memset alone.
 *
 * A request asks for one of nine calls (open, close, map, ..) and gets one
 * answer. A batch is a list of requests.
 *
 * Promised of make, audit and serve: each ends, stays inside the buffers lent
 * to it, and leaves the answers and the words that document 01 fixes, whatever
 * words the buffers hold and however long they are; of small_list likewise,
 * with the words of the list that it names. A function that refuses writes
 * nothing; a refused request changes no word of the state. The places of a
 * domain depend on its own requests alone, but for the numbers of its
 * TreeLings, as long as no mapping of another names a frame that it names and
 * it is never answered 13.
 *
 * Owed by the host: buffers of uint64_t that do not overlap, two for make and
 * three for serve, as long as it says, and the stack that
 * ivleague_stack_bytes names. Nothing else. A buffer of length 0 may be NULL:
 * no word of it is read or written.
 *
 * Threads: different states may be served by different threads at once. One
 * state is served by one thread at a time.
 */
#ifndef IVLEAGUE_H
#define IVLEAGUE_H

#include <stddef.h>
#include <stdint.h>

#ifdef __cplusplus
extern "C" {
#endif

/* The version of this header and of the library that comes with it. */
#define IVLEAGUE_VERSION "5.1.0"
#define IVLEAGUE_VERSION_MAJOR 5
#define IVLEAGUE_VERSION_MINOR 1
#define IVLEAGUE_VERSION_PATCH 0

/*
 * Sizes go from 1 to these; a board has at most so many holes, a batch so many requests, a run so
 * many frames.
 */
enum ivleague_limit {
    IVLEAGUE_MOST_TREELINGS = 4096,
    IVLEAGUE_MOST_DOMAINS = 4096,
    IVLEAGUE_MOST_FRAMES = 8388608,
    IVLEAGUE_MOST_HOLES = 8,
    IVLEAGUE_MOST_REQUESTS = 65536,
    IVLEAGUE_LONGEST_RUN = 2048 /* a longer one gets IVLEAGUE_REFUSED_FRAME */
};

/*
 * What make, audit and serve return (0 to 6), and what an answer's first word says (0, 7 to 14
 * and 16).
 */
enum ivleague_number {
    IVLEAGUE_DONE = 0,              /* done */
    IVLEAGUE_REFUSED_SIZES = 1,     /* make: a size is 0 or past its limit, or holes are wrong */
    IVLEAGUE_REFUSED_LENGTH = 2,    /* make: the buffer is not ivleague_state_words long */
    IVLEAGUE_REFUSED_CONTENTS = 3,  /* the first 25 words or the length are no state's */
    IVLEAGUE_REFUSED_AUDIT = 4,     /* the words after them are not sound */
    IVLEAGUE_REFUSED_REQUESTS = 5,  /* request words no multiple of 4, or more than 262,144 */
    IVLEAGUE_REFUSED_ANSWERS = 6,   /* answer words not twice the request words */
    IVLEAGUE_REFUSED_MALFORMED = 7, /* call not 1 to 8 or 11, or a word it does not use is not 0 */
    IVLEAGUE_REFUSED_DOMAIN = 8,    /* no such domain */
    IVLEAGUE_REFUSED_FRAME = 9,     /* no such frame, or a run empty, too long or past them */
    IVLEAGUE_REFUSED_LIVE = 10,     /* open: the domain is live */
    IVLEAGUE_REFUSED_NOT_LIVE = 11, /* the domain is not live */
    IVLEAGUE_REFUSED_MAPPED = 12,   /* map: the frame is mapped, by whomever */
    IVLEAGUE_REFUSED_NO_PLACE = 13, /* map: no slot is free and no TreeLing unowned */
    IVLEAGUE_REFUSED_NOT_MAPPED = 14, /* unmap, path: this domain has not mapped the frame */
    /* 15 is retired and is not used again. */
    IVLEAGUE_REFUSED_HOLE = 16, /* a frame of the request lies in a hole; asked right after 9 */
    IVLEAGUE_NUMBERS = 17       /* one past the last number */
};

/* A request: 4 words. Words that a call does not use are 0. */
enum ivleague_request {
    IVLEAGUE_REQUEST_CALL,
    IVLEAGUE_REQUEST_DOMAIN,
    IVLEAGUE_REQUEST_FRAME,
    IVLEAGUE_REQUEST_COUNT,
    IVLEAGUE_REQUEST_WORDS
};

/* The calls: what a request's first word asks for, and the words it uses besides the domain. */
enum ivleague_call {
    IVLEAGUE_OPEN = 1,
    IVLEAGUE_CLOSE = 2,
    IVLEAGUE_MAP = 3,       /* frame */
    IVLEAGUE_UNMAP = 4,     /* frame */
    IVLEAGUE_PATH = 5,      /* frame */
    IVLEAGUE_MAP_RUN = 6,   /* frame, count */
    IVLEAGUE_UNMAP_RUN = 7, /* frame, count */
    IVLEAGUE_TRIM = 8,
    IVLEAGUE_FILL = 11,
    IVLEAGUE_CALLS = 12 /* one past the last call; 9 and 10 are not taken */
};

/*
 * An answer: 8 words. A done map or path fills all of them, path with pages 0;
 * a done fill the words that enum ivleague_fill names; other done calls fill
 * number and pages, which of a trim counts TreeLings; a refused one the
 * number. The rest is 0.
 */
enum ivleague_answer {
    IVLEAGUE_ANSWER_NUMBER,
    IVLEAGUE_ANSWER_RANK,
    IVLEAGUE_ANSWER_LEVEL_1, /* the TreeLing's number */
    IVLEAGUE_ANSWER_LEVEL_2,
    IVLEAGUE_ANSWER_LEVEL_3,
    IVLEAGUE_ANSWER_LEVEL_4, /* the leaf node */
    IVLEAGUE_ANSWER_POSITION,
    IVLEAGUE_ANSWER_PAGES, /* pages that this request mapped or released */
    IVLEAGUE_ANSWER_WORDS
};

/*
 * A done trim's word. Each TreeLing of the domain that holds no page is unowned again. The others
 * keep their pages and their order, and get ranks from 0 on. If none is empty, nothing changes.
 */
enum ivleague_trim {
    IVLEAGUE_TRIM_RETURNED = IVLEAGUE_ANSWER_PAGES /* how many TreeLings are unowned again */
};

/*
 * A done fill's words: how full the domain is in thousandths, with nothing rounded away,
 *     1,000 * pages mapped = quotient * slots + remainder, and remainder is below slots.
 * Without TreeLings all three are 0.
 */
enum ivleague_fill {
    IVLEAGUE_FILL_QUOTIENT = IVLEAGUE_ANSWER_RANK, /* 0 to 1,000, which is every slot in use */
    IVLEAGUE_FILL_REMAINDER = IVLEAGUE_ANSWER_LEVEL_1,
    IVLEAGUE_FILL_SLOTS = IVLEAGUE_ANSWER_LEVEL_2 /* IVLEAGUE_SLOTS for each TreeLing it owns */
};

/* The contents: a state's first 25 words. The four bodies follow back to back. */
enum ivleague_contents {
    IVLEAGUE_TREELINGS,
    IVLEAGUE_DOMAINS,
    IVLEAGUE_FRAMES,
    IVLEAGUE_HAND,            /* where the search for an unowned TreeLing begins */
    IVLEAGUE_DOMAINS_START,   /* IVLEAGUE_DOMAIN_WORDS for each domain */
    IVLEAGUE_TREELINGS_START, /* IVLEAGUE_TREELING_WORDS for each TreeLing */
    IVLEAGUE_NFL_START, /* IVLEAGUE_NFL_WORDS for each TreeLing: 256 * leaf node + free positions */
    IVLEAGUE_LEAF_MAP_START, /* a leaf ID a frame, 4096 * TreeLing + slot + 1; 0 is unmapped */
    IVLEAGUE_HOLES,          /* how many there are */
    IVLEAGUE_HOLE_PAIRS,     /* IVLEAGUE_HOLE_WORDS for each of IVLEAGUE_MOST_HOLES; 0 if unused */
    IVLEAGUE_CONTENTS_WORDS = 25
};

/*
 * A hole: frames that no domain may map. Holes are in order of their frames and do not overlap,
 * none is empty, and none leaves the frames. Two may lie side by side.
 */
enum ivleague_hole {
    IVLEAGUE_HOLE_FIRST, /* frame */
    IVLEAGUE_HOLE_LENGTH,
    IVLEAGUE_HOLE_WORDS
};

/* A domain's record. TreeLings are number + 1; 0 is none. */
enum ivleague_domain {
    IVLEAGUE_DOMAIN_LIVE,
    IVLEAGUE_DOMAIN_FIRST,
    IVLEAGUE_DOMAIN_LAST,
    IVLEAGUE_DOMAIN_HEAD_TREELING,
    IVLEAGUE_DOMAIN_HEAD_BLOCK,
    IVLEAGUE_DOMAIN_PAGES,
    IVLEAGUE_DOMAIN_WORDS
};

/*
 * A TreeLing's record. Owner and former are domain + 1, previous and next are number + 1; 0 is
 * none. While it is owned, former is the owner; while it is not, former alone may be other than 0.
 */
enum ivleague_treeling {
    IVLEAGUE_TREELING_OWNER,
    IVLEAGUE_TREELING_PREVIOUS,
    IVLEAGUE_TREELING_NEXT,
    IVLEAGUE_TREELING_RANK,
    IVLEAGUE_TREELING_FORMER, /* who owned it last; a domain takes its former ones first */
    IVLEAGUE_TREELING_WORDS
};

/* A TreeLing's parts. */
enum ivleague_geometry {
    IVLEAGUE_SLOTS = 4096,
    IVLEAGUE_NFL_WORDS = 512, /* leaf nodes, and entries of the node free list */
    IVLEAGUE_BLOCKS = 64,     /* of eight entries */
    IVLEAGUE_BLOCK_WORDS = 8
};

/*
 * The small request lists: every list of at most three of the 16 legal requests of calls 1 to 5
 * for a board of these sizes without holes. Numbered from 0, shorter ones first, then in order of
 * their words.
 */
enum ivleague_small {
    IVLEAGUE_SMALL_TREELINGS = 1,
    IVLEAGUE_SMALL_DOMAINS = 2,
    IVLEAGUE_SMALL_FRAMES = 2,
    IVLEAGUE_SMALL_REQUESTS = 3, /* the most that a list has */
    IVLEAGUE_SMALL_NONE = 4,     /* no such list, or no room for it */
    IVLEAGUE_SMALL_LISTS = 4369
};

/* The length of a state, for sizes within the limits. */
static inline uint64_t ivleague_state_words(uint64_t treelings, uint64_t domains, uint64_t frames)
{
    return 25 + 6 * domains + 517 * treelings + frames;
}

/*
 * The stack that an audit or a batch takes at most, of a state of these sizes: measured at every
 * tier (tests/stack.c) and rounded up.
 */
static inline size_t ivleague_stack_bytes(uint64_t treelings, uint64_t domains)
{
    if (treelings <= 16 && domains <= 256)
        return (size_t)40 * 1024;
    if (treelings <= 256)
        return (size_t)200 * 1024;
    if (treelings <= 1024)
        return (size_t)584 * 1024;
    return (size_t)2120 * 1024;
}

/*
 * Makes a new state: 0, 1 or 2. Holes are lent as their words, one hole after the other; without
 * holes the length is 0.
 */
uint64_t ivleague_make(uint64_t treelings, uint64_t domains, uint64_t frames, const uint64_t *holes,
                       size_t hole_words, uint64_t *state, size_t state_words);

/* Audits a state: 0, 3 or 4. Writes nothing. */
uint64_t ivleague_audit(const uint64_t *state, size_t state_words);

/* Audits the state once, then answers each request in order: 0, or 3 to 6. */
uint64_t ivleague_serve(uint64_t *state, size_t state_words, const uint64_t *requests,
                        size_t request_words, uint64_t *answers, size_t answer_words);

/*
 * Writes the small request list with this number to the front of the buffer, to be served from a
 * new state. Returns how many requests it has, 0 to 3, or IVLEAGUE_SMALL_NONE, and nothing is
 * written. This is a count, and none of the numbers above.
 */
uint64_t ivleague_small_list(uint64_t number, uint64_t *requests, size_t request_words);

/* Names to print, of an answer's number and of a call. Never NULL. C, tested, not proved. */
const char *ivleague_number_name(uint64_t number);
const char *ivleague_call_name(uint64_t call);

/* The version of the library that runs, as IVLEAGUE_VERSION is that of the header. */
const char *ivleague_version(void);

#ifdef __cplusplus
}
#endif

#endif
