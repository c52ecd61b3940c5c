/* Regions inside regions and inside tasks, with tasks in each. */
#include "working.h"

#include <omp.h>

static int sum;

static void add(int what) {
#pragma omp atomic
    sum += what;
}

static void begin_region(int threads) {
#pragma omp parallel num_threads(threads)
    {
#pragma omp single
        for (int i = 0; i < 4; i++) {
#pragma omp task firstprivate(i)
            add(i), work();
        }
#pragma omp task
        add(0);
#pragma omp taskwait
    }
}

int main(void) {
    omp_set_max_active_levels(3);
#pragma omp parallel
#pragma omp single
    {
        begin_region(2);
        for (int i = 0; i < 4; i++) {
#pragma omp task firstprivate(i)
            {
#pragma omp task
                add(100);
                begin_region(1 + i % 3);
#pragma omp taskwait
                add(1000);
            }
        }
#pragma omp taskwait
        begin_region(3);
    }
    printf("nested: %d\n", sum);
    return 0;
}
