/* A taskgroup, which waits for grandchildren too. */
#include "unfinished.h"

int main(void) {
#pragma omp parallel num_threads(TEAM)
#pragma omp single
    {
#pragma omp taskgroup
        for (int task = 0; task < 8; task++) {
#pragma omp task firstprivate(task)
            {
#pragma omp task firstprivate(task)
                finish(8 + task);
                finish(task);
            }
        }
        print_unfinished("taskgroup", 16);
    }
    return 0;
}
