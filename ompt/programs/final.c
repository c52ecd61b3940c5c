/* Final tasks, whose own tasks run at once in them. */
#include "unfinished.h"

int main(void) {
#pragma omp parallel num_threads(TEAM)
#pragma omp single
    {
        for (int task = 0; task < 4; task++) {
#pragma omp task final(task > 1) firstprivate(task)
            {
#pragma omp task firstprivate(task)
                finish(4 + task);
#pragma omp taskwait
                finish(task);
            }
        }
#pragma omp taskwait
        print_unfinished("taskwait", 8);
    }
    return 0;
}
