/* What the programs with regions inside others share. The outer team has two threads, or as many as OMP_NUM_THREADS says,
   up to TEAM. */
#ifndef NESTED_H
#define NESTED_H

#include "../unfinished.h"

#include <omp.h>
#include <stdlib.h>

enum { LEVELS = 4, PER_TEAM = 8 };

/* What each program begins with. */
static void allow_inner_regions(void) {
    int asked = getenv("OMP_NUM_THREADS") ? omp_get_max_threads() : 2;
    omp_set_max_active_levels(LEVELS);
    omp_set_num_threads(asked < TEAM ? asked : TEAM);
}

/* The first number of the tasks of this inner region: that of its member of the outer region, times what a team has. */
static inline int first_of_team(void) {
    return omp_get_ancestor_thread_num(1) * PER_TEAM;
}

#endif
