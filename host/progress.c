#define _POSIX_C_SOURCE 200809L

#include "progress.h"

#include <inttypes.h>
#include <stdio.h>
#include <stdlib.h>
#include <string.h>
#include <sys/ioctl.h>
#include <sys/stat.h>
#include <unistd.h>

enum {
    TENTH = 100000000, /* of a second */
    USUAL_COLUMNS = 80,
    LEAST_CELLS = 8,
    MOST_CELLS = 40,
    AROUND = 3,  /* columns of the brackets and the space after them */
    PERCENT = 4, /* columns of the percents */
    MOST_TEXT = 80
};

/* Whether a bar stands on the terminal, which is one for all. */
static bool shown;

/* A terminal on standard error that can go back in its line. */
static bool can_draw(void)
{
    const char *kind = getenv("TERM");
    return isatty(STDERR_FILENO) && kind && *kind != '\0' && strcmp(kind, "dumb") != 0;
}

void progress_begin(struct progress *progress, int log, bool answers)
{
    struct stat about;
    *progress = (struct progress){.wanted = can_draw() && !(answers && isatty(STDOUT_FILENO))};
    if (fstat(log, &about) == 0 && S_ISREG(about.st_mode))
        progress->total = (uint64_t)about.st_size;
    clock_gettime(CLOCK_MONOTONIC, &progress->next);
    progress->next.tv_sec++;
}

/* Whether the next drawing is due; if so the one after it is set. */
static bool due(struct progress *progress)
{
    struct timespec now;
    clock_gettime(CLOCK_MONOTONIC, &now);
    struct timespec next = progress->next;
    if (now.tv_sec < next.tv_sec || (now.tv_sec == next.tv_sec && now.tv_nsec < next.tv_nsec))
        return false;
    progress->next = now;
    progress->next.tv_nsec += TENTH;
    if (progress->next.tv_nsec >= 10 * TENTH) {
        progress->next.tv_nsec -= 10 * TENTH;
        progress->next.tv_sec++;
    }
    return true;
}

/* The columns to fill; from the last one a terminal may go to the next line. */
static int room(void)
{
    struct winsize size;
    bool known = ioctl(STDERR_FILENO, TIOCGWINSZ, &size) == 0 && size.ws_col > 0;
    return (known ? size.ws_col : USUAL_COLUMNS) - 1;
}

/* Draws `[####    ]  50%  1234 requests`; a narrow terminal gets no count, or percents alone. */
static void draw(int percent, const char *count)
{
    static const char bar[] = "########################################";
    char text[MOST_TEXT];
    int most = room();
    bool wide = most >= LEAST_CELLS + AROUND + PERCENT + (int)strlen(count);
    int length = snprintf(text, sizeof text, "%3d%%%s", percent, wide ? count : "");
    int cells = most - length - AROUND < MOST_CELLS ? most - length - AROUND : MOST_CELLS;
    if (cells < LEAST_CELLS)
        fprintf(stderr, "\r%.*s\033[K", most, text);
    else
        fprintf(stderr, "\r[%-*.*s] %s\033[K", cells, cells * percent / 100, bar, text);
}

void progress_step(struct progress *progress, uint64_t bytes, uint64_t requests)
{
    char count[MOST_TEXT / 2];
    if (!progress->wanted || !due(progress))
        return;
    shown = true;
    snprintf(count, sizeof count, "  %" PRIu64 " requests", requests);
    if (progress->total == 0)
        fprintf(stderr, "\r%.*s\033[K", room(), count + 2);
    else if (bytes < progress->total)
        draw((int)(100 * bytes / progress->total), count);
    else
        draw(100, count);
}

void progress_wipe(void)
{
    if (shown)
        fputs("\r\033[K", stderr);
    shown = false;
}
