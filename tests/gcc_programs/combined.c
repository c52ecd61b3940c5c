/* Combined constructs with tasks inside: parallel for of each schedule, parallel sections, parallel master taskloop. */
#include "working.h"

enum { LENGTH = 20 };
static int sum;

static void create(int what) {
#pragma omp task firstprivate(what)
    {
        work();
#pragma omp atomic
        sum += what;
    }
}

int main(void) {
#pragma omp parallel for
    for (int i = 0; i < LENGTH; i++) create(1);
#pragma omp parallel for schedule(static, 1)
    for (int i = 0; i < LENGTH; i++) create(2);
#pragma omp parallel for schedule(dynamic)
    for (int i = 0; i < LENGTH; i++) create(3);
#pragma omp parallel for schedule(guided)
    for (int i = 0; i < LENGTH; i++) create(4);
#pragma omp parallel for schedule(runtime)
    for (int i = 0; i < LENGTH; i++) create(5);
#pragma omp parallel for schedule(monotonic : dynamic, 2)
    for (int i = 0; i < LENGTH; i++) create(6);
#pragma omp parallel for schedule(nonmonotonic : guided)
    for (int i = 0; i < LENGTH; i++) create(6);
#pragma omp parallel for ordered schedule(dynamic)
    for (int i = 0; i < LENGTH; i++) {
#pragma omp ordered
        create(7);
    }
#pragma omp parallel sections
    {
#pragma omp section
        create(8);
#pragma omp section
        create(9);
    }
#pragma omp parallel master taskloop num_tasks(5)
    for (int i = 0; i < LENGTH; i++) create(10);
#pragma omp parallel masked taskloop simd grainsize(4)
    for (int i = 0; i < LENGTH; i++) {
#pragma omp atomic
        sum += i;
    }
    printf("combined: %d\n", sum);
    return 0;
}
