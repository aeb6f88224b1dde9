#include "status.h"

#include <errno.h>
#include <stdarg.h>
#include <stdio.h>
#include <string.h>

#include "progress.h"

enum status status_say(enum status status, const char *format, ...)
{
    va_list values;
    va_start(values, format);
    fflush(stdout);
    progress_wipe();
    vfprintf(stderr, format, values);
    fputc('\n', stderr);
    va_end(values);
    return status;
}

enum status status_errno(const char *what)
{
    return status_say(STATUS_INPUT, "replay: %s: %s", what, strerror(errno));
}
