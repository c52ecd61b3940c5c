/* exit() inside a task, on any thread of a team, while others still run. */
#include "working.h"

#include <stdlib.h>

static int sum;

int main(void) {
#pragma omp parallel
    {
#pragma omp single
        for (int i = 0; i < 10; i++) {
#pragma omp task
            {
#pragma omp atomic
                sum++;
            }
        }
#pragma omp single nowait
        {
#pragma omp task
            {
                work();
                printf("exit_in_task: %d\n", sum);
                fflush(stdout);
                exit(0);
            }
        }
    }
    return 1;
}
