/* Taskloops that wait for nothing, with a taskwait, a taskgroup and a barrier behind them. */
#include "working.h"

static int seen[30], sums[3];

static int sum_of(int first, int count) {
    int sum = 0;
    for (int i = first; i < first + count; i++) sum += seen[i];
    return sum;
}

int main(void) {
#pragma omp parallel
    {
#pragma omp single
        {
#pragma omp taskloop nogroup num_tasks(5)
            for (int i = 0; i < 10; i++) seen[i] = 1, work();
#pragma omp taskwait
            sums[0] = sum_of(0, 10);
#pragma omp taskgroup
            {
#pragma omp taskloop nogroup grainsize(3)
                for (int i = 10; i < 20; i++) seen[i] = 2, work();
            }
            sums[1] = sum_of(10, 10);
#pragma omp taskloop nogroup num_tasks(4)
            for (int i = 20; i < 30; i++) seen[i] = 3, work();
        }
#pragma omp barrier
#pragma omp master
        sums[2] = sum_of(20, 10);
    }
    printf("taskloop_nogroup: %d %d %d\n", sums[0], sums[1], sums[2]);
    return 0;
}
