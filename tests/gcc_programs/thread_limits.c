/* Teams that get fewer threads than they ask for: by a limit of the environment, dynamic sizes, and an if clause. */
#include "working.h"

#include <omp.h>

static int sum;

static void run(void) {
#pragma omp single
    for (int i = 0; i < 6; i++) {
#pragma omp task firstprivate(i)
        {
            work();
#pragma omp atomic
            sum += i;
        }
    }
}

int main(void) {
    omp_set_dynamic(1);
#pragma omp parallel num_threads(12)
    run();
    omp_set_dynamic(0);
#pragma omp parallel
    run();
    omp_set_max_active_levels(2);
#pragma omp parallel num_threads(3)
    {
#pragma omp parallel num_threads(2) if (omp_get_thread_num() == 0)
#pragma omp single
        {
#pragma omp task
            {
#pragma omp atomic
                sum += 0;
            }
        }
    }
    printf("thread_limits: %d\n", sum);
    return 0;
}
