/* Exit statuses, which are also what functions that can fail return. They print their own message.
 */
#ifndef STATUS_H
#define STATUS_H

enum status {
    STATUS_DONE = 0,
    STATUS_REFUSED = 1, /* a batch or a state was refused */
    STATUS_INPUT = 2,   /* usage, a file, a line of a log, or memory */
    STATUS_STRICT = 3,  /* --strict, and a request was refused */
    STATUS_BUSY = 4     /* another run works on the state, or has changed it */
};

/* A function like printf: the places of its format and of the first value. */
#ifdef __GNUC__
#define PRINTF_LIKE(text, values) __attribute__((format(printf, text, values)))
#else
#define PRINTF_LIKE(text, values)
#endif

/* Prints a message on standard error, as printf does, and returns the status. */
enum status status_say(enum status status, const char *format, ...) PRINTF_LIKE(2, 3);

/* Prints "replay: WHAT: why errno says so". */
enum status status_errno(const char *what);

#endif
