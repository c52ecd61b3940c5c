/* Taskloops whose parts run at once: by if(0), inside a final task, and outside of any region. */
#include "working.h"

static int sum;

static void add(int what) {
#pragma omp atomic
    sum += what;
}

int main(void) {
#pragma omp taskloop num_tasks(3)
    for (int i = 0; i < 7; i++) add(i);
#pragma omp parallel
#pragma omp single
    {
#pragma omp taskloop if (0) num_tasks(4)
        for (int i = 0; i < 12; i++) add(i), work();
#pragma omp taskloop if (sum > 1000) grainsize(2)
        for (int i = 0; i < 5; i++) add(i);
#pragma omp task final(1)
        {
#pragma omp taskloop num_tasks(3)
            for (int i = 0; i < 9; i++) add(i);
        }
    }
    printf("taskloop_undeferred: %d\n", sum);
    return 0;
}
