/* Barriers of a team of four: each member's tasks are done after them. */
#include "unfinished.h"

#include <omp.h>

int main(void) {
#pragma omp parallel num_threads(TEAM)
    {
        int member = omp_get_thread_num();
#pragma omp task firstprivate(member)
        finish(member);
#pragma omp barrier
#pragma omp single
        print_unfinished("barrier", TEAM);
#pragma omp task firstprivate(member)
        finish(TEAM + member);
    }
    print_unfinished("parallel", 2 * TEAM);
    return 0;
}
