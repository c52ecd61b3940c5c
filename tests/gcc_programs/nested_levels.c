/* Regions inside others beyond the levels that are active: those have one thread. */
#include "working.h"

#include <omp.h>

static int sum;

static void descend(int level) {
#pragma omp parallel num_threads(2)
#pragma omp single
    {
#pragma omp task
        {
#pragma omp atomic
            sum += level;
            work();
        }
        if (level < 4) descend(level + 1);
#pragma omp taskwait
    }
}

int main(void) {
    omp_set_max_active_levels(2);
    descend(1);
#pragma omp parallel if (0)
    {
#pragma omp task
        {
#pragma omp atomic
            sum += 100;
        }
    }
    omp_set_max_active_levels(1);
    descend(3);
    printf("nested_levels: %d\n", sum);
    return 0;
}
