/* A state file, shown to a person. */
#ifndef INSPECT_H
#define INSPECT_H

#include "format.h"
#include "status.h"

/* Prints the audit's verdict, and unless the contents are wrong what the words say, sound or not;
 * else what they may be. */
enum status inspect(const char *name, enum format format);

#endif
