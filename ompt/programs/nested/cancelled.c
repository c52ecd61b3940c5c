/* A taskgroup that is cancelled in an inner region, with OMP_CANCELLATION=true, while the outer one has tasks. The two
   tasks of the taskgroup before it are not discarded. */
#include "nested.h"

static void cancel_some(int first) {
#pragma omp taskgroup
    for (int task = 0; task < 2; task++) {
#pragma omp task firstprivate(first, task)
        finish(first + task);
    }
    print_unfinished_from("inner taskgroup", first, 2);
#pragma omp taskgroup
    for (int task = 2; task < 8; task++) {
#pragma omp task firstprivate(first, task)
        {
#pragma omp cancel taskgroup
            finish(first + task);
        }
    }
}

int main(void) {
    allow_inner_regions();
#pragma omp parallel
#pragma omp single
    {
        for (int task = 0; task < 4; task++) {
#pragma omp task firstprivate(task)
            finish(task);
        }
#pragma omp parallel num_threads(2)
#pragma omp single
        cancel_some(PER_TEAM);
        cancel_some(2 * PER_TEAM);
#pragma omp taskwait
        print_unfinished("outer taskwait", 4);
    }
    return 0;
}
