/* Constructs that share work, with tasks inside: sections, single with and without copyprivate, scope, master. */
#include "working.h"

static int sum, wrong;

static void create(int what) {
#pragma omp task firstprivate(what)
    {
        work();
#pragma omp atomic
        sum += what;
    }
}

static void share_sections(void) {
#pragma omp sections
    {
#pragma omp section
        create(1);
#pragma omp section
        create(2);
#pragma omp section
        create(3);
    }
#pragma omp sections nowait
    {
        create(4);
#pragma omp section
        create(5);
    }
}

static void share_single(void) {
    int copied = 0;
#pragma omp single copyprivate(copied)
    {
        create(6);
        copied = 42;
    }
    if (copied != 42) {
#pragma omp atomic
        wrong++;
    }
#pragma omp single nowait
    create(7);
}

int main(void) {
    int of_scope = 0;
#pragma omp parallel
    {
        share_sections();
        share_single();
#pragma omp scope reduction(max : of_scope)
        of_scope = 3;
#pragma omp scope nowait
        {
#pragma omp masked
            create(8);
        }
#pragma omp critical
        {
#pragma omp master
            create(9);
        }
#pragma omp single
        create(10);
    }
    printf("shares: %d %d %d\n", sum, of_scope, wrong);
    return 0;
}
