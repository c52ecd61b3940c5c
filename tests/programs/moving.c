/* Untied tasks on four threads, which create tasks between their yields and go on where a thread is free. None of them
   waits for its own children: LLVM's runtime then may never end. */
#include "../../ompt/programs/unfinished.h"

int main(void) {
#pragma omp parallel num_threads(TEAM)
#pragma omp single
    {
#pragma omp taskgroup
        for (int task = 0; task < 12; task++) {
#pragma omp task untied firstprivate(task)
            {
#pragma omp taskyield
#pragma omp task firstprivate(task)
                finish(12 + task);
#pragma omp taskyield
#pragma omp task untied firstprivate(task)
                {
#pragma omp taskyield
                    finish(24 + task);
                }
                finish(task);
            }
        }
        print_unfinished("taskgroup", 36);
    }
    return 0;
}
