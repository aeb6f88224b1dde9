#include "line.h"

#include <inttypes.h>
#include <stdarg.h>
#include <stdio.h>
#include <string.h>

#include "ivleague.h"
#include "status.h"

enum {
    SIZES = 3,
    MOST_HOLE_WORDS = IVLEAGUE_MOST_HOLES * IVLEAGUE_HOLE_WORDS,
    MOST_FIELDS = 1 + SIZES + MOST_HOLE_WORDS,
    SURE_DIGITS = 19, /* so many are a number of 64 bits, whatever they are */
    MOST_SHOWN = 40
};

struct field {
    const char *text;
    size_t length;
};

/* The first fields of a line, and how many it has. */
struct fields {
    struct field at[MOST_FIELDS];
    size_t count;
};

/* A field's first bytes, printable ones as they are. */
struct shown {
    char text[4 * MOST_SHOWN + 4];
};

static void refuse(struct line *line, const char *format, ...) PRINTF_LIKE(2, 3);

/* Makes it a bad line with this message. */
static void refuse(struct line *line, const char *format, ...)
{
    va_list values;
    va_start(values, format);
    line->kind = LINE_BAD;
    vsnprintf(line->message, sizeof line->message, format, values);
    va_end(values);
}

static struct shown show(struct field field)
{
    struct shown shown = {""};
    char *to = shown.text;
    for (size_t i = 0; i < field.length && i < MOST_SHOWN; i++) {
        unsigned char byte = (unsigned char)field.text[i];
        bool printable = byte > ' ' && byte <= '~';
        to += sprintf(to, printable ? "%c" : "\\x%02x", byte);
    }
    if (field.length > MOST_SHOWN)
        strcpy(to, "...");
    return shown;
}

/* Decodes one character of UTF-8; the answer is its length, or 0 if it is none. */
static size_t decode(const char *text, size_t left, uint32_t *character)
{
    static const uint32_t least[] = {0, 0, 0x80, 0x800, 0x10000};
    const unsigned char *bytes = (const unsigned char *)text;
    uint32_t first = bytes[0];
    if (first < 0x80) {
        *character = first;
        return 1;
    }
    size_t length = first >= 0xF0 ? 4 : first >= 0xE0 ? 3 : 2;
    if (first < 0xC0 || first > 0xF4 || left < length)
        return 0;
    uint32_t value = first & (0x7Fu >> length);
    for (size_t i = 1; i < length; i++) {
        if ((bytes[i] & 0xC0u) != 0x80)
            return 0;
        value = value << 6 | (bytes[i] & 0x3Fu);
    }
    if (value < least[length] || value > 0x10FFFF || (value >= 0xD800 && value <= 0xDFFF))
        return 0;
    *character = value;
    return length;
}

/* Unicode's White_Space. */
static bool is_space(uint32_t c)
{
    if (c < 0x80)
        return c == ' ' || (c >= '\t' && c <= '\r');
    return c == 0x85 || c == 0xA0 || c == 0x1680 || (c >= 0x2000 && c <= 0x200A) || c == 0x2028 ||
           c == 0x2029 || c == 0x202F || c == 0x205F || c == 0x3000;
}

static void add_field(struct fields *fields, const char *from, const char *to)
{
    if (from == to)
        return;
    if (fields->count < MOST_FIELDS)
        fields->at[fields->count] = (struct field){from, (size_t)(to - from)};
    fields->count++;
}

/* Splits a line at white space; the answer is how far it is UTF-8. */
static size_t split(const char *text, size_t length, struct fields *fields)
{
    size_t start = 0, at = 0;
    while (at < length) {
        uint32_t character;
        size_t size = decode(text + at, length - at, &character);
        if (size == 0)
            return at;
        if (is_space(character)) {
            add_field(fields, text + start, text + at);
            start = at + size;
        }
        at += size;
    }
    add_field(fields, text + start, text + length);
    return length;
}

static bool field_is(struct field field, const char *word)
{
    return field.length == strlen(word) && memcmp(field.text, word, field.length) == 0;
}

static bool is_digits(struct field field)
{
    for (size_t i = 0; i < field.length; i++)
        if (field.text[i] < '0' || field.text[i] > '9')
            return false;
    return true;
}

/* A decimal number below 2^64, digits only. */
static bool parse_number(struct field field, struct line *line, uint64_t *number)
{
    if (!is_digits(field)) {
        refuse(line, "a decimal number is expected, not: %s", show(field).text);
        return false;
    }
    *number = 0;
    for (size_t i = 0; i < field.length; i++) {
        uint64_t digit = (uint64_t)(field.text[i] - '0');
        if (*number > (UINT64_MAX - digit) / 10) {
            refuse(line, "a number of 64 bits is expected, not: %s", show(field).text);
            return false;
        }
        *number = 10 * *number + digit;
    }
    return true;
}

/* Fields from the first on: so many numbers, or as many as there are. */
static bool parse_numbers(const struct fields *fields, size_t first, size_t count,
                          uint64_t *numbers, struct line *line)
{
    for (size_t i = 0; i < count && first + i < fields->count; i++)
        if (!parse_number(fields->at[first + i], line, &numbers[i]))
            return false;
    return true;
}

/* Refuses sizes that are not within their limits. */
static void check_sizes(struct line *line)
{
    static const char *const names[SIZES] = {"TreeLings", "domains", "frames"};
    static const uint64_t most[SIZES] = {IVLEAGUE_MOST_TREELINGS, IVLEAGUE_MOST_DOMAINS,
                                         IVLEAGUE_MOST_FRAMES};
    for (size_t i = 0; i < SIZES && line->kind == LINE_SIZES; i++)
        if (line->numbers[i] < 1 || line->numbers[i] > most[i])
            refuse(line, "sizes not allowed: %" PRIu64 " %s, where 1 to %" PRIu64 " are",
                   line->numbers[i], names[i], most[i]);
}

/* Refuses a hole that begins before the one before it ends. Both are within the frames. */
static void check_order(const struct holes *holes, size_t place, struct line *line)
{
    const uint64_t *hole = hole_at(holes, place), *before = hole_at(holes, place - 1);
    uint64_t first = hole[IVLEAGUE_HOLE_FIRST];
    if (first < before[IVLEAGUE_HOLE_FIRST])
        refuse(line, "hole %zu begins before hole %zu", place + 1, place);
    else if (first - before[IVLEAGUE_HOLE_FIRST] < before[IVLEAGUE_HOLE_LENGTH])
        refuse(line, "hole %zu (%s) overlaps hole %zu (%s)", place + 1, hole_show(hole).text, place,
               hole_show(before).text);
}

static void check_hole(const struct holes *holes, size_t place, uint64_t frames, struct line *line)
{
    const uint64_t *hole = hole_at(holes, place);
    uint64_t first = hole[IVLEAGUE_HOLE_FIRST], length = hole[IVLEAGUE_HOLE_LENGTH];
    if (length == 0)
        refuse(line, "hole %zu is empty", place + 1);
    else if (first >= frames)
        refuse(line, "hole %zu begins past the last frame, %" PRIu64, place + 1, frames - 1);
    else if (length > frames - first)
        refuse(line, "hole %zu ends past the last frame, %" PRIu64, place + 1, frames - 1);
    else if (place > 0)
        check_order(holes, place, line);
}

/* The pairs after the sizes, which are within their limits. */
static void parse_holes(const struct fields *fields, struct line *line)
{
    struct holes *holes = &line->holes;
    size_t words = fields->count - 1 - SIZES;
    *holes = (struct holes){.count = words / IVLEAGUE_HOLE_WORDS};
    if (!parse_numbers(fields, 1 + SIZES, MOST_HOLE_WORDS, holes->words, line))
        return;
    if (words > MOST_HOLE_WORDS)
        refuse(line, "more than %d holes", IVLEAGUE_MOST_HOLES);
    else if (words % IVLEAGUE_HOLE_WORDS != 0)
        refuse(line, "the pairs of holes are cut off: hole %zu has no length", holes->count + 1);
    for (size_t i = 0; i < holes->count && line->kind == LINE_SIZES; i++)
        check_hole(holes, i, line->numbers[SIZES - 1], line);
}

static void parse_sizes(const struct fields *fields, struct line *line)
{
    line->kind = LINE_SIZES;
    if (!parse_numbers(fields, 1, SIZES, line->numbers, line))
        return;
    if (fields->count < 1 + SIZES)
        refuse(line, "sizes are 3 numbers (TreeLings, domains, frames), %zu found",
               fields->count - 1);
    check_sizes(line);
    if (line->kind == LINE_SIZES)
        parse_holes(fields, line);
}

static void parse_request(const struct fields *fields, struct line *line)
{
    line->kind = LINE_REQUEST;
    if (parse_numbers(fields, 0, 4, line->numbers, line) && fields->count != 4)
        refuse(line, "a request has 4 numbers (call, domain, frame, count), %zu found",
               fields->count);
}

static void parse_fields(const struct fields *fields, struct line *line)
{
    struct field first = fields->at[0];
    if (fields->count == 0)
        line->kind = LINE_NOTHING;
    else if (field_is(first, "batch") && fields->count == 1)
        line->kind = LINE_BATCH;
    else if (field_is(first, "batch"))
        refuse(line, "nothing is expected after batch, not: %s", show(fields->at[1]).text);
    else if (field_is(first, "sizes"))
        parse_sizes(fields, line);
    else if (strchr("+-0123456789", first.text[0]) && first.text[0] != '\0')
        parse_request(fields, line);
    else
        refuse(line, "sizes, batch or a request of 4 numbers is expected, not: %s",
               show(first).text);
}

/* Reads digits up to the end, at most as many as any number of 64 bits can have. */
static const char *take_digits(const char *at, const char *end, uint64_t *number)
{
    const char *most = end - at > SURE_DIGITS ? at + SURE_DIGITS : end;
    *number = 0;
    for (; at < most && *at >= '0' && *at <= '9'; at++)
        *number = 10 * *number + (uint64_t)(*at - '0');
    return at;
}

/* Reads a request as it is mostly written: four numbers, a space between, a newline behind. False
 * of any other line, legal or not. */
static bool parse_usual(const char *at, size_t length, struct line *line)
{
    const char *end = at + length;
    for (size_t i = 0; i < IVLEAGUE_REQUEST_WORDS; i++) {
        char after = i + 1 < IVLEAGUE_REQUEST_WORDS ? ' ' : '\n';
        const char *digits = at;
        at = take_digits(at, end, &line->numbers[i]);
        if (at == digits || at == end || *at++ != after)
            return false;
    }
    line->kind = LINE_REQUEST;
    line->cut = line->returns = false;
    return at == end;
}

/* Looks how a line that was read ends, and for what may have been meant as ends of lines. */
static void look_at_end(const char *text, size_t length, struct line *line)
{
    bool ended = length > 0 && text[length - 1] == '\n';
    const char *first = memchr(text, '\r', length);
    size_t after = first ? (size_t)(text + length - first) : 0;
    line->cut = !ended && (line->kind == LINE_REQUEST || line->kind == LINE_SIZES);
    line->returns = after > (ended ? 2 : 1);
}

void line_parse(const char *text, size_t length, bool first, struct line *line)
{
    static const char mark[] = "\xef\xbb\xbf";
    struct fields fields;
    if (parse_usual(text, length, line))
        return;
    fields.count = 0;
    const char *comment = memchr(text, '#', length);
    size_t start = first && length >= 3 && memcmp(text, mark, 3) == 0 ? 3 : 0;
    size_t end = comment ? (size_t)(comment - text) : length;
    size_t good = start + split(text + start, end - start, &fields);
    if (good == end)
        parse_fields(&fields, line);
    else
        refuse(line, "text in UTF-8 is expected, not byte 0x%02x at column %zu",
               (unsigned char)text[good], good + 1);
    look_at_end(text, length, line);
}
