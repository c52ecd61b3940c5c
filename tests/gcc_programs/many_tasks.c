/* More tasks than libgomp defers: the rest run at once. */
#include "working.h"

static int sum;

int main(void) {
#pragma omp parallel
    {
#pragma omp single
        for (int i = 0; i < 3000; i++) {
#pragma omp task firstprivate(i)
            {
#pragma omp atomic
                sum += i % 5;
            }
        }
        for (int i = 0; i < 100; i++) {
#pragma omp task
            {
#pragma omp atomic
                sum += 0;
            }
        }
#pragma omp taskwait
    }
    printf("many_tasks: %d\n", sum);
    return 0;
}
