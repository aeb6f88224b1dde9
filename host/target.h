/* Where a path of the command line leads. */
#ifndef TARGET_H
#define TARGET_H

#include <stdbool.h>
#include <sys/stat.h>

#include "status.h"

struct target {
    char *path;        /* the file to replace, with links followed; NULL: written through */
    bool there;        /* something is there already */
    struct stat about; /* it, or else the folder it will be in */
    struct stat folder;
};

/* Whether a name is -, which is standard input or output; NULL is none. */
bool is_standard(const char *name);

/* Looks where an output leads and whether it can be written; writes nothing. */
enum status target_find(struct target *target, const char *name);
void target_free(struct target *target);

/* Looks where an input lies. Nothing is asked of it; free it as an output. */
void target_look(struct target *target, const char *name);

/* The target of an open file; none if it is closed. */
struct target target_opened(int file);

/* Whether two lie by one name in one folder, which stays so when either is replaced. */
bool target_same_name(const struct target *one, const struct target *other);

/* Whether two are one file or one pipe. Devices may be shared. */
bool target_same(const struct target *one, const struct target *other);

/* This name in the folder of a path; NULL without memory. */
char *path_beside(const char *path, const char *name);

/* What follows the last slash. */
const char *last_name(const char *path);

bool same_inode(const struct stat *one, const struct stat *other);

#endif
