/* Taskwaits with dependences wait for some of the tasks; and one without predecessors, and one with a depend object. */
#include "working.h"

#include <omp.h>

static int a, b, seen_a, seen_b;

int main(void) {
    omp_depend_t object;
#pragma omp depobj(object) depend(in : b)
#pragma omp parallel
#pragma omp single
    {
#pragma omp taskwait depend(in : a)
        for (int i = 0; i < 12; i++) {
#pragma omp task depend(inout : a)
            a += i, work();
#pragma omp task depend(inout : b)
            b += 2, work();
#pragma omp taskwait depend(in : a)
            seen_a += a;
        }
#pragma omp taskwait depend(depobj : object) depend(in : a)
        seen_b = b;
#pragma omp task depend(out : a)
        a = 7, work();
#pragma omp taskwait depend(inout : a, b)
        seen_a += a;
    }
#pragma omp depobj(object) destroy
    printf("taskwait_depend: %d %d\n", seen_a, seen_b);
    return 0;
}
