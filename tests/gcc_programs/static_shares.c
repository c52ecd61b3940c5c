/* Work that is shared in the same way in each run, with tasks inside: static loops, a single, and barriers. */
#include "working.h"

#include <omp.h>

enum { LENGTH = 24 };
static int sum, singles;

static void create(int what) {
#pragma omp task firstprivate(what)
    {
        work();
#pragma omp atomic
        sum += what;
    }
}

int main(void) {
#pragma omp parallel
    {
#pragma omp for schedule(static)
        for (int i = 0; i < LENGTH; i++) create(1);
#pragma omp for schedule(static, 2) nowait
        for (int i = 0; i < LENGTH; i++) create(2);
#pragma omp single
        singles++;
#pragma omp for schedule(static, 1)
        for (int i = 0; i < LENGTH; i++) create(4);
#pragma omp barrier
        if (omp_get_thread_num() == 0) create(5);
    }
#pragma omp parallel for schedule(static)
    for (int i = 0; i < LENGTH; i++) create(6);
    printf("static_shares: %d %d\n", sum, singles);
    return 0;
}
