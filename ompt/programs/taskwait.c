/* Tasks and a taskwait: eight children, of which each creates one more and waits for it. */
#include "unfinished.h"

int main(void) {
#pragma omp parallel num_threads(TEAM)
#pragma omp single
    {
        for (int task = 0; task < 8; task++) {
#pragma omp task firstprivate(task)
            {
#pragma omp task firstprivate(task)
                finish(8 + task);
#pragma omp taskwait
                finish(task);
            }
        }
#pragma omp taskwait
        print_unfinished("taskwait", 16);
    }
    return 0;
}
