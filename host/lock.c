#define _GNU_SOURCE

#include "lock.h"

#include <errno.h>
#include <fcntl.h>
#include <stdio.h>
#include <stdlib.h>
#include <string.h>
#include <sys/file.h>
#include <unistd.h>

#include "target.h"

#define LOCK_PREFIX ".replay-lock-"

enum { MOST_NAME = 200 }; /* bytes of the state's name in the lock's: its last ones */

/* Whether an open file still has this name. */
static bool is_at(int file, const char *path)
{
    struct stat here, there;
    return fstat(file, &here) == 0 && lstat(path, &there) == 0 && same_inode(&here, &there);
}

/* The file beside that stands for a file's name. */
static char *lock_path(const char *path)
{
    char text[sizeof LOCK_PREFIX + MOST_NAME];
    const char *name = last_name(path);
    size_t length = strlen(name);
    if (length > MOST_NAME)
        name += length - MOST_NAME;
    snprintf(text, sizeof text, LOCK_PREFIX "%s", name);
    return path_beside(path, text);
}

/* Opens a lock's file, which another may make or take away just now, and may own. */
static int open_lock(const char *path)
{
    int file, flags = O_CLOEXEC | O_NOFOLLOW | O_NONBLOCK;
    do {
        file = open(path, O_RDWR | flags);
        if (file < 0 && errno == EACCES)
            file = open(path, O_RDONLY | flags);
        if (file < 0 && errno == ENOENT)
            file = open(path, O_RDWR | O_CREAT | O_EXCL | flags, 0666);
    } while (file < 0 && errno == EEXIST);
    return file;
}

bool lock_unknown(void)
{
    return errno == ENOLCK || errno == ENOTSUP || errno == ENOSYS;
}

static int lock_file(int file, int way)
{
    int result;
    do {
        result = flock(file, way);
    } while (result != 0 && errno == EINTR);
    return result;
}

bool lock_own(int file, const char *path)
{
    if (lock_file(file, LOCK_EX | LOCK_NB) != 0)
        return false;
    errno = 0;
    return is_at(file, path);
}

/* A lock's file is closed, and nothing is locked. */
static void leave(struct lock *lock)
{
    if (lock->file >= 0)
        close(lock->file);
    free(lock->path);
    *lock = (struct lock){.file = -1};
}

/* What is told where a lock is not got. A file system without locks has none to ask for. */
static enum status not_locked(struct lock *lock, const char *name)
{
    int why = errno;
    leave(lock);
    errno = why;
    if (lock_unknown())
        return STATUS_DONE;
    if (why != EWOULDBLOCK)
        return status_errno(name);
    return status_say(STATUS_BUSY,
                      "replay: %s: another replay works on this state; nothing is served (--wait "
                      "waits for it)",
                      name);
}

/* Locks the file that has the lock's name when it is locked. */
static enum status take(struct lock *lock, const char *name, int way)
{
    for (;;) {
        lock->file = open_lock(lock->path);
        if (lock->file < 0 || lock_file(lock->file, way) != 0)
            return not_locked(lock, name);
        if (is_at(lock->file, lock->path))
            return STATUS_DONE;
        close(lock->file);
    }
}

enum status lock_take(struct lock *lock, const char *name, bool alone, bool wait)
{
    struct target target;
    *lock = (struct lock){.file = -1};
    if (!name || is_standard(name))
        return STATUS_DONE;
    enum status status = target_find(&target, name);
    if (status != STATUS_DONE || !target.path)
        return status;
    lock->path = lock_path(target.path);
    target_free(&target);
    if (!lock->path)
        return status_errno(name);
    return take(lock, name, (alone ? LOCK_EX : LOCK_SH) | (wait ? 0 : LOCK_NB));
}

/* Whoever has the lock's file for itself takes it away, if it is as it was made. */
void lock_release(struct lock *lock)
{
    struct stat about;
    if (lock->path && lock_own(lock->file, lock->path) && fstat(lock->file, &about) == 0 &&
        S_ISREG(about.st_mode) && about.st_size == 0)
        unlink(lock->path);
    leave(lock);
}
