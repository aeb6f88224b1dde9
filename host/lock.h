/*
 * The right to replace a state file, held from before it is loaded until it is saved. A run that
 * saves where it loaded has it alone; runs that only save there may share it. It is a lock on a
 * file beside, .replay-lock-NAME, since a save puts another file in the place of the state. It ends
 * with the process, however that ends.
 */
#ifndef LOCK_H
#define LOCK_H

#include <stdbool.h>

#include "status.h"

struct lock {
    char *path; /* NULL: nothing is locked */
    int file;
};

/* Locks a name, if a file is replaced there. Another's lock is waited for, or told. */
enum status lock_take(struct lock *lock, const char *name, bool alone, bool wait);
void lock_release(struct lock *lock);

/* Locks a file that is open, alone and at once; false if it is another's, or has lost its name, or
 * cannot be locked. */
bool lock_own(int file, const char *path);

/* Whether errno says that there are no locks here. */
bool lock_unknown(void);

#endif
