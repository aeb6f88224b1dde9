#define _GNU_SOURCE

#include "output.h"

#include <dirent.h>
#include <errno.h>
#include <fcntl.h>
#include <signal.h>
#include <stdlib.h>
#include <string.h>
#include <unistd.h>

#include "lock.h"

#define TEMPORARY ".replay-new-"

enum { MOST_TRIES = 100 };

/* The signals that were blocked before a file was begun. */
static sigset_t blocked;

/* The mode that a new file gets. */
static mode_t new_mode(void)
{
    mode_t mask = umask(0);
    umask(mask);
    return 0666 & ~mask;
}

/* A file takes the mode of the one it replaces, and owner and group where that is allowed. */
static bool keep_mode(int file, const struct target *target)
{
    const struct stat *about = &target->about;
    if (!target->there)
        return fchmod(file, new_mode()) == 0;
    bool kept = fchown(file, about->st_uid, about->st_gid) == 0 ||
                fchown(file, (uid_t)-1, about->st_gid) == 0;
    return fchmod(file, about->st_mode & (kept ? 0777 : 0707)) == 0;
}

/* Removes a temporary file unless a process has it locked, which is its writer. */
static void remove_left(const char *path)
{
    int file = open(path, O_RDONLY | O_CLOEXEC | O_NOFOLLOW | O_NONBLOCK);
    if (file >= 0 && lock_own(file, path))
        unlink(path);
    if (file >= 0)
        close(file);
}

/* Removes what runs that were killed have left beside a file. */
static void clear_beside(const char *path)
{
    char *folder = path_beside(path, ".");
    DIR *names = folder ? opendir(folder) : NULL;
    for (const struct dirent *entry = NULL; names && (entry = readdir(names));) {
        bool left = strncmp(entry->d_name, TEMPORARY, strlen(TEMPORARY)) == 0;
        char *name = left ? path_beside(path, entry->d_name) : NULL;
        if (name)
            remove_left(name);
        free(name);
    }
    if (names)
        closedir(names);
    free(folder);
}

/* Makes a temporary file and locks it. Whoever removes what is left may have been quicker. */
static int make_locked(char *path)
{
    char *end = path + strlen(path) - strlen("XXXXXX");
    for (int tries = 0; tries < MOST_TRIES; tries++) {
        strcpy(end, "XXXXXX");
        int file = mkostemp(path, O_CLOEXEC);
        if (file < 0 || lock_own(file, path) || lock_unknown())
            return file;
        close(file);
        unlink(path);
    }
    errno = EBUSY;
    return -1;
}

/* Makes a file beside the one to replace. Signals wait from here on. */
static int open_beside(struct output *output)
{
    sigset_t all;
    sigfillset(&all);
    output->temporary = path_beside(output->target.path, TEMPORARY "XXXXXX");
    if (!output->temporary)
        return -1;
    clear_beside(output->target.path);
    sigprocmask(SIG_SETMASK, &all, &blocked);
    return make_locked(output->temporary);
}

/* The temporary file has its name, or is gone: then the disk has its room again. */
static void unhold(struct output *output)
{
    int why = errno;
    if (output->held >= 0)
        close(output->held);
    output->held = -1;
    errno = why;
}

static void let_go(struct output *output)
{
    unhold(output);
    if (output->temporary)
        sigprocmask(SIG_SETMASK, &blocked, NULL);
    free(output->temporary);
    target_free(&output->target);
}

/* Closes a file that could not be used. */
static void drop(const struct output *output, int file)
{
    close(file);
    if (output->temporary)
        unlink(output->temporary);
}

static enum status open_named(struct output *output)
{
    int file = output->target.path ? open_beside(output) : open(output->name, O_WRONLY | O_NOCTTY);
    output->held = output->temporary && file >= 0 ? fcntl(file, F_DUPFD_CLOEXEC, 0) : -1;
    output->file = file >= 0 ? fdopen(file, "w") : NULL;
    if (output->file)
        return STATUS_DONE;
    enum status status = status_errno(output->name);
    if (file >= 0)
        drop(output, file);
    let_go(output);
    return status;
}

enum status output_open(struct output *output, const char *name)
{
    *output = (struct output){.name = name, .held = -1};
    if (is_standard(name)) {
        output->name = "standard output";
        output->file = stdout;
        return STATUS_DONE;
    }
    enum status status = target_find(&output->target, name);
    return status == STATUS_DONE ? open_named(output) : status;
}

/* Brings a file to the disk; a pipe or a device has none. */
static bool sync_file(int file)
{
    return fsync(file) == 0 || errno == EINVAL || errno == ENOTSUP || errno == EROFS;
}

/* Brings the names of a file's folder to the disk, where the folder can be read. */
static bool sync_folder(const char *path)
{
    char *name = path_beside(path, ".");
    int folder = name ? open(name, O_RDONLY | O_DIRECTORY | O_CLOEXEC) : -1;
    bool synced = folder < 0 || sync_file(folder);
    if (folder >= 0)
        close(folder);
    free(name);
    return synced;
}

/* Brings what is written to where it goes. */
static bool finish(const struct output *output)
{
    int file = fileno(output->file);
    if (ferror(output->file) || fflush(output->file) != 0)
        return false;
    if (output->file == stdout)
        return true;
    return (!output->temporary || keep_mode(file, &output->target)) && sync_file(file);
}

/* Whether what is to be replaced is still what was loaded. */
static bool is_still(const struct output *output)
{
    struct stat now;
    const struct stat *was = output->replaces;
    return !was || (stat(output->target.path, &now) == 0 && same_inode(&now, was) &&
                    now.st_size == was->st_size && now.st_mtim.tv_sec == was->st_mtim.tv_sec &&
                    now.st_mtim.tv_nsec == was->st_mtim.tv_nsec);
}

/* Takes away what was written, since another has changed the file in the meantime. */
static enum status give_up(struct output *output)
{
    unlink(output->temporary);
    unhold(output);
    enum status status = status_say(STATUS_BUSY,
                                    "replay: %s: no longer the file that was loaded; it stays as "
                                    "it is, and nothing is saved",
                                    output->name);
    let_go(output);
    return status;
}

/* Gives a whole file its name, or takes away what there is of it. */
static bool settle(const struct output *output, bool whole)
{
    if (whole && rename(output->temporary, output->target.path) == 0)
        return sync_folder(output->target.path);
    int why = errno;
    unlink(output->temporary);
    errno = why;
    return false;
}

enum status output_close(struct output *output)
{
    bool good = finish(output);
    int why = errno;
    if (output->file != stdout && fclose(output->file) != 0 && good) {
        good = false;
        why = errno;
    }
    errno = why;
    if (output->temporary && good && !is_still(output))
        return give_up(output);
    if (output->temporary)
        good = settle(output, good);
    unhold(output);
    enum status status = good ? STATUS_DONE : status_errno(output->name);
    let_go(output);
    return status;
}
