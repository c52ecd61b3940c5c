/* Tasks that are final, mergeable, untied, or have a priority, and what omp_in_final says in them. */
#include "working.h"

#include <omp.h>

static int finals, sum;

static void add(int what) {
#pragma omp atomic
    sum += what;
}

static void descend(int depth) {
    if (omp_in_final()) {
#pragma omp atomic
        finals++;
    }
    if (depth == 0) {
        add(1);
        return;
    }
#pragma omp task final(depth < 3) mergeable
    descend(depth - 1);
#pragma omp task untied priority(depth)
    descend(depth - 1);
#pragma omp taskwait
}

int main(void) {
#pragma omp parallel
#pragma omp single
    {
        descend(6);
#pragma omp task mergeable if (0)
        add(1000);
        for (int i = 0; i < 10; i++) {
#pragma omp task untied priority(i) firstprivate(i)
            {
                add(i);
#pragma omp taskyield
                work();
#pragma omp task final(i % 2) untied
                add(100);
#pragma omp taskwait
                add(i);
            }
        }
    }
    printf("clauses: %d %d\n", sum, finals);
    return 0;
}
