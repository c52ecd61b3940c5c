/* A taskgroup that is cancelled, with OMP_CANCELLATION=true: some of its tasks are discarded. The two tasks of the
   taskgroup before it are not. */
#include "unfinished.h"

int main(void) {
#pragma omp parallel num_threads(TEAM)
#pragma omp single
    {
#pragma omp taskgroup
        for (int task = 0; task < 2; task++) {
#pragma omp task firstprivate(task)
            finish(task);
        }
        print_unfinished("taskgroup", 2);
#pragma omp taskgroup
        for (int task = 2; task < 32; task++) {
#pragma omp task firstprivate(task)
            {
#pragma omp cancel taskgroup
                finish(task);
            }
        }
    }
    return 0;
}
