/* Names of answers and calls, for a host to print, and the version. The installed library has them.
 */
#include "ivleague.h"

static const char *const numbers[IVLEAGUE_NUMBERS] = {
    [IVLEAGUE_DONE] = "done",
    [IVLEAGUE_REFUSED_SIZES] = "sizes or holes not allowed",
    [IVLEAGUE_REFUSED_LENGTH] = "length of the state not exact",
    [IVLEAGUE_REFUSED_CONTENTS] = "contents or length of no state",
    [IVLEAGUE_REFUSED_AUDIT] = "audit not passed",
    [IVLEAGUE_REFUSED_REQUESTS] = "request words no multiple of 4 or more than 262144",
    [IVLEAGUE_REFUSED_ANSWERS] = "answer words not twice the request words",
    [IVLEAGUE_REFUSED_MALFORMED] = "malformed request",
    [IVLEAGUE_REFUSED_DOMAIN] = "no such domain",
    [IVLEAGUE_REFUSED_FRAME] = "no such frame or run",
    [IVLEAGUE_REFUSED_LIVE] = "domain live already",
    [IVLEAGUE_REFUSED_NOT_LIVE] = "domain not live",
    [IVLEAGUE_REFUSED_MAPPED] = "frame mapped already",
    [IVLEAGUE_REFUSED_NO_PLACE] = "no place",
    [IVLEAGUE_REFUSED_NOT_MAPPED] = "frame not mapped by this domain",
    [IVLEAGUE_REFUSED_HOLE] = "frame in a hole",
};

static const char *const calls[IVLEAGUE_CALLS] = {
    [IVLEAGUE_OPEN] = "open",
    [IVLEAGUE_CLOSE] = "close",
    [IVLEAGUE_MAP] = "map",
    [IVLEAGUE_UNMAP] = "unmap",
    [IVLEAGUE_PATH] = "path",
    [IVLEAGUE_MAP_RUN] = "map run",
    [IVLEAGUE_UNMAP_RUN] = "unmap run",
    [IVLEAGUE_TRIM] = "trim",
    [IVLEAGUE_FILL] = "fill",
};

const char *ivleague_number_name(uint64_t number)
{
    return number < IVLEAGUE_NUMBERS && numbers[number] ? numbers[number] : "unknown";
}

const char *ivleague_call_name(uint64_t call)
{
    return call < IVLEAGUE_CALLS && calls[call] ? calls[call] : "no call";
}

const char *ivleague_version(void)
{
    return IVLEAGUE_VERSION;
}
