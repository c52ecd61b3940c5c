/* Tasks that run at once, by if(0), beside one that does not. */
#include "unfinished.h"

int main(void) {
#pragma omp parallel num_threads(TEAM)
#pragma omp single
    {
#pragma omp task
        finish(0);
        for (int task = 1; task < 4; task++) {
#pragma omp task if (0) firstprivate(task)
            finish(task);
        }
#pragma omp taskwait
        print_unfinished("taskwait", 4);
    }
    return 0;
}
