/* Taskloops whose parts have exactly the size that is asked for, but the last. */
#include "working.h"

static int parts[3][40];

int main(void) {
#pragma omp parallel
#pragma omp single
    {
#pragma omp taskloop grainsize(strict : 7)
        for (int i = 0; i < 40; i++) parts[0][i] = i / 7, work();
#pragma omp taskloop num_tasks(strict : 6)
        for (int i = 0; i < 40; i++) parts[1][i] = i;
#pragma omp taskloop grainsize(strict : 50)
        for (int i = 39; i >= 0; i--) parts[2][i] = 1;
    }
    int sum = 0;
    for (int i = 0; i < 40; i++) sum += parts[0][i] + parts[1][i] + parts[2][i];
    printf("taskloop_strict: %d\n", sum);
    return 0;
}
