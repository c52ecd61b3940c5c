/* Taskloops by grainsize and by num_tasks, also strict, with fewer iterations than tasks, and with none. */
#include "working.h"

static int seen[64];

static int sum_of(int count) {
    int sum = 0;
    for (int i = 0; i < count; i++) sum += seen[i] * (i + 1);
    return sum;
}

int main(void) {
    int empty = 0;
#pragma omp parallel
#pragma omp single
    {
#pragma omp taskloop grainsize(7)
        for (int i = 0; i < 50; i++) seen[i] += 1, work();
#pragma omp taskloop num_tasks(6)
        for (int i = 0; i < 50; i += 3) seen[i] += 2;
#pragma omp taskloop num_tasks(9)
        for (int i = 4; i > -1; i--) seen[i] += 3;
#pragma omp taskloop grainsize(4)
        for (int i = 3; i < 3; i++) empty++;
#pragma omp taskloop num_tasks(1)
        for (int i = 60; i < 64; i++) seen[i] += 4;
    }
    printf("taskloop_sizes: %d, %d\n", sum_of(64), empty);
    return 0;
}
