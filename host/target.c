#define _GNU_SOURCE

#include "target.h"

#include <errno.h>
#include <fcntl.h>
#include <limits.h>
#include <stdlib.h>
#include <string.h>
#include <unistd.h>

enum { MOST_LINKS = 40, MOST_LOOKS = 100 };

bool is_standard(const char *name)
{
    return name && strcmp(name, "-") == 0;
}

const char *last_name(const char *path)
{
    const char *slash = strrchr(path, '/');
    return slash ? slash + 1 : path;
}

char *path_beside(const char *path, const char *name)
{
    size_t folder = (size_t)(last_name(path) - path);
    size_t length = strlen(name) + 1;
    char *text = malloc(folder + length);
    if (text) {
        memcpy(text, path, folder);
        memcpy(text + folder, name, length);
    }
    return text;
}

/* The path that a link names; NULL if it is no link. */
static char *read_link(const char *path)
{
    char text[PATH_MAX];
    ssize_t length = readlink(path, text, sizeof text - 1);
    if (length < 0)
        return NULL;
    text[length] = '\0';
    return text[0] == '/' ? strdup(text) : path_beside(path, text);
}

/* The path that is no link any more. What it names need not be there. */
static char *follow(const char *name)
{
    char *path = strdup(name);
    char *next = path ? read_link(path) : NULL;
    for (int links = 1; next && links < MOST_LINKS; links++) {
        free(path);
        path = next;
        next = read_link(path);
    }
    free(next);
    return path;
}

bool same_inode(const struct stat *one, const struct stat *other)
{
    return one->st_dev == other->st_dev && one->st_ino == other->st_ino;
}

/* Pipes and character devices are written through. */
static enum status look_through(const struct stat *about, const char *name)
{
    if (S_ISDIR(about->st_mode)) {
        errno = EISDIR;
        return status_errno(name);
    }
    if (!S_ISCHR(about->st_mode) && !S_ISFIFO(about->st_mode))
        return status_say(STATUS_INPUT,
                          "replay: %s: a file, a pipe or a character device is expected", name);
    return access(name, W_OK) == 0 ? STATUS_DONE : status_errno(name);
}

/* Whether a file system, or a file of another place, is mounted here. */
static bool is_mounted(const char *path)
{
    struct statx about;
    return statx(AT_FDCWD, path, 0, 0, &about) == 0 &&
           (about.stx_attributes & STATX_ATTR_MOUNT_ROOT) != 0;
}

/* Whether the folder's sticky bit keeps the file for its owner and the folder's. */
static bool is_kept(const struct stat *file, const struct stat *folder)
{
    uid_t user = geteuid();
    return (folder->st_mode & S_ISVTX) != 0 && user != 0 && user != file->st_uid &&
           user != folder->st_uid;
}

/* Whether the path is what the name leads to. Another process may be replacing it just now. */
static bool leads_to(const char *name, struct target *target)
{
    struct stat named;
    for (int looks = 0; looks < MOST_LOOKS && stat(target->path, &target->about) == 0; looks++)
        if (stat(name, &named) == 0 && same_inode(&named, &target->about))
            return true;
    return false;
}

/* A file that is there is to be writable, replaceable, and what its name leads to. */
static enum status look_at_file(struct target *target, const struct stat *folder, const char *name)
{
    if (!leads_to(name, target))
        return status_say(STATUS_INPUT, "replay: %s: a file without a name cannot be replaced",
                          name);
    if (access(target->path, W_OK) != 0)
        return status_errno(name);
    if (!is_mounted(target->path) && !is_kept(&target->about, folder))
        return STATUS_DONE;
    return status_say(STATUS_INPUT, "replay: %s: this file cannot be replaced in its folder", name);
}

/* A folder is to take new files. */
static enum status look_at_folder(struct target *target, const char *folder, const char *name)
{
    struct stat about;
    if (stat(folder, &about) != 0 || access(folder, W_OK | X_OK) != 0)
        return status_errno(name);
    target->folder = about;
    if (target->there)
        return look_at_file(target, &about, name);
    target->about = about;
    if (*last_name(target->path) != '\0')
        return STATUS_DONE;
    errno = ENOENT;
    return status_errno(name);
}

static enum status find_file(struct target *target, const char *name)
{
    target->path = follow(name);
    char *folder = target->path ? path_beside(target->path, ".") : NULL;
    enum status status = folder ? look_at_folder(target, folder, name) : status_errno(name);
    free(folder);
    if (status != STATUS_DONE)
        target_free(target);
    return status;
}

enum status target_find(struct target *target, const char *name)
{
    *target = (struct target){0};
    target->there = stat(name, &target->about) == 0;
    if (!target->there && errno != ENOENT)
        return status_errno(name);
    if (target->there && !S_ISREG(target->about.st_mode))
        return look_through(&target->about, name);
    return find_file(target, name);
}

void target_free(struct target *target)
{
    free(target->path);
    target->path = NULL;
}

void target_look(struct target *target, const char *name)
{
    *target = (struct target){.path = follow(name)};
    char *folder = target->path ? path_beside(target->path, ".") : NULL;
    if (!folder || stat(folder, &target->folder) != 0)
        target_free(target);
    free(folder);
    target->there = stat(name, &target->about) == 0;
}

bool target_same_name(const struct target *one, const struct target *other)
{
    return one->path && other->path && same_inode(&one->folder, &other->folder) &&
           strcmp(last_name(one->path), last_name(other->path)) == 0;
}

struct target target_opened(int file)
{
    struct target target = {0};
    target.there = fstat(file, &target.about) == 0;
    return target;
}

bool target_same(const struct target *one, const struct target *other)
{
    if (one->there != other->there || !same_inode(&one->about, &other->about))
        return false;
    if (one->there)
        return S_ISREG(one->about.st_mode) || S_ISFIFO(one->about.st_mode);
    return one->path && other->path && strcmp(last_name(one->path), last_name(other->path)) == 0;
}
