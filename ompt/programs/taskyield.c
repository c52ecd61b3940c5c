/* Tasks that yield to others. */
#include "unfinished.h"

int main(void) {
#pragma omp parallel num_threads(TEAM)
#pragma omp single
    {
        for (int task = 0; task < 16; task++) {
#pragma omp task firstprivate(task)
            {
#pragma omp taskyield
                finish(task);
            }
        }
#pragma omp taskwait
        print_unfinished("taskwait", 16);
    }
    return 0;
}
