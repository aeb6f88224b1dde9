/* Logs, read and not served. */
#ifndef CHECK_H
#define CHECK_H

#include "options.h"
#include "status.h"

/* Says what is wrong with each line of the logs, and of each log that nothing is. */
enum status check_logs(const struct options *options);

#endif
