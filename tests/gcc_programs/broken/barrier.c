/* Tasks before a barrier, of which the primary thread creates all. */
#include "../../../ompt/programs/unfinished.h"

int main(void) {
#pragma omp parallel num_threads(TEAM)
    {
#pragma omp master
        for (int task = 0; task < 8; task++) {
#pragma omp task firstprivate(task)
            finish(task);
        }
#pragma omp barrier
#pragma omp master
        print_unfinished("barrier", 8);
    }
    return 0;
}
