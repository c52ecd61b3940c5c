/* Regions in the members of a team, with tasks and barriers of the outer team around them: each region waits for its own
   tasks at its barrier and at its end. */
#include "nested.h"

static void begin_region(int first) {
#pragma omp parallel num_threads(2)
    {
        int own = first + omp_get_thread_num();
#pragma omp task firstprivate(own)
        finish(own);
#pragma omp task firstprivate(own)
        finish(own + 2);
#pragma omp barrier
#pragma omp single
        print_unfinished_from("inner barrier", first, 4);
#pragma omp task firstprivate(own)
        finish(own + 4);
    }
    print_unfinished_from("inner parallel", first, 6);
}

int main(void) {
    allow_inner_regions();
#pragma omp parallel
    {
        int first = omp_get_thread_num() * PER_TEAM;
#pragma omp task firstprivate(first)
        finish(first + 6);
#pragma omp barrier
        print_unfinished_from("outer barrier", first + 6, 1);
        begin_region(first);
#pragma omp task firstprivate(first)
        finish(first + 7);
#pragma omp barrier
        print_unfinished_from("outer barrier", first + 7, 1);
    }
    return 0;
}
