/* Tasks and waits outside of any region: tasks run at once, and taskwaits, taskgroups and barriers wait for nothing. */
#include "working.h"

static int sum, seen;

static void orphaned(int what) {
#pragma omp task firstprivate(what)
    {
        work();
#pragma omp atomic
        sum += what;
    }
#pragma omp taskwait
#pragma omp atomic read
    seen = sum;
}

int main(void) {
    orphaned(1);
#pragma omp taskgroup
    {
#pragma omp task depend(out : sum)
        sum += 10;
#pragma omp task depend(in : sum)
        seen = sum;
    }
#pragma omp barrier
#pragma omp taskwait
#pragma omp parallel
    {
#pragma omp single
        orphaned(100);
#pragma omp taskwait
    }
    orphaned(1000);
#pragma omp for
    for (int i = 0; i < 4; i++) orphaned(i);
#pragma omp taskwait depend(in : sum)
    printf("outside: %d %d\n", sum, seen);
    return 0;
}
