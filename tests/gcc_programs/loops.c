/* Loops of each schedule with tasks inside: static, dynamic, guided, by the environment, ordered, and without a barrier. */
#include "working.h"

enum { LENGTH = 24 };
static int sum, order[LENGTH], next;

static void create(int what) {
#pragma omp task firstprivate(what)
    {
        work();
#pragma omp atomic
        sum += what;
    }
}

int main(void) {
    unsigned long long bound = LENGTH;
#pragma omp parallel
    {
#pragma omp for schedule(static)
        for (int i = 0; i < LENGTH; i++) create(1);
#pragma omp for schedule(static, 2) nowait
        for (int i = 0; i < LENGTH; i++) create(2);
#pragma omp for schedule(dynamic, 3)
        for (int i = 0; i < LENGTH; i++) create(3);
#pragma omp for schedule(guided) nowait
        for (int i = 0; i < LENGTH; i++) create(4);
#pragma omp for schedule(runtime)
        for (int i = 0; i < LENGTH; i++) create(5);
#pragma omp for schedule(monotonic : dynamic)
        for (unsigned long long i = 0; i < bound; i++) create(6);
#pragma omp for ordered schedule(dynamic)
        for (int i = 0; i < LENGTH; i++) {
            create(7);
#pragma omp ordered
            order[next++] = i;
        }
#pragma omp for ordered schedule(static)
        for (int i = 0; i < LENGTH; i++) {
#pragma omp ordered
            order[i] += 1;
            create(8);
        }
    }
    int is_ordered = 1;
    for (int i = 0; i < LENGTH; i++) is_ordered &= order[i] == i + 1;
    printf("loops: %d %d\n", sum, is_ordered);
    return 0;
}
