/* The plugin that plugin.c loads. */
#include "working.h"

int run_plugin(void);

int run_plugin(void) {
    int sum = 0;
#pragma omp parallel
#pragma omp single
    {
        for (int i = 0; i < 20; i++) {
#pragma omp task firstprivate(i) shared(sum)
            {
                work();
#pragma omp atomic
                sum += i;
            }
        }
#pragma omp taskwait
#pragma omp taskloop num_tasks(4) shared(sum)
        for (int i = 0; i < 10; i++) {
#pragma omp atomic
            sum += i;
        }
    }
    return sum;
}
