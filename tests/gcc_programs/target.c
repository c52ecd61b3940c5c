/* Target constructs on the host, whose tasks and waits are those of a task of their own: a taskwait in one waits for no task
   that was created before it. */
#include "working.h"

static int sum, inside;

static void add(int *to) {
    work();
#pragma omp atomic
    (*to)++;
}

static void meet_target(void) {
#pragma omp task
    add(&sum);
#pragma omp target map(tofrom : inside)
    {
        for (int i = 0; i < 3; i++) {
#pragma omp task
            add(&inside);
        }
#pragma omp taskwait
#pragma omp parallel num_threads(2)
        {
#pragma omp task
            add(&inside);
        }
    }
#pragma omp taskwait
}

int main(void) {
#pragma omp parallel
#pragma omp single
    {
        meet_target();
        for (int i = 0; i < 4; i++) {
#pragma omp task
            meet_target();
        }
    }
    meet_target();
#pragma omp target data map(tofrom : sum)
    sum++;
    printf("%d %d\n", sum, inside);
}
