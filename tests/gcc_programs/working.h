/* What the programs share. A task that works takes long enough that others run beside it. */
#ifndef WORKING_H
#define WORKING_H

#include <stdio.h>
#include <unistd.h>

enum { WORK_MICROSECONDS = 30 };

static inline void work(void) {
    usleep(WORK_MICROSECONDS);
}

#endif
