/* A taskloop, whose tasks are in a taskgroup of its own. */
#include "unfinished.h"

int main(void) {
#pragma omp parallel num_threads(TEAM)
#pragma omp single
    {
#pragma omp taskloop grainsize(1)
        for (int task = 0; task < 16; task++) finish(task);
        print_unfinished("taskloop", 16);
    }
    return 0;
}
