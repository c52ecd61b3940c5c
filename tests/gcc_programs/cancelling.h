/* What the programs that cancel something share: how many bodies begin after that, which depends on timing, but is small
   where the runtime drops what has not begun. */
#ifndef CANCELLING_H
#define CANCELLING_H

#include "working.h"

static int is_begun, late;

static inline void count_body(void) {
    int is_late;
#pragma omp atomic read
    is_late = is_begun;
#pragma omp atomic
    late += is_late;
}

/* Directly before the program cancels. */
static inline void begin_cancel(void) {
#pragma omp atomic write
    is_begun = 1;
}

/* Where no thread is in what was cancelled any more. */
static inline void end_cancel(void) {
    is_begun = 0;
}

static inline void print_late(void) {
    printf("late %d\n", late);
}

#endif
