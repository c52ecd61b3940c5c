/* Reductions over the tasks of parallel regions, loops, sections and a scope. */
#include "working.h"

int main(void) {
    long of_region = 0, of_loop = 0, of_sections = 0, of_scope = 0, of_both = 0;
#pragma omp parallel reduction(task, + : of_region)
    {
#pragma omp single
        for (int i = 0; i < 16; i++) {
#pragma omp task in_reduction(+ : of_region)
            of_region += i, work();
        }
#pragma omp for reduction(task, + : of_loop)
        for (int i = 0; i < 8; i++) {
#pragma omp task in_reduction(+ : of_loop)
            of_loop += i;
        }
#pragma omp sections reduction(task, + : of_sections)
        {
#pragma omp section
            {
#pragma omp task in_reduction(+ : of_sections)
                of_sections += 3;
            }
#pragma omp section
            of_sections += 4;
        }
#pragma omp scope reduction(task, + : of_scope)
        {
            of_scope += 0;
#pragma omp task in_reduction(+ : of_scope)
            of_scope += 0;
        }
    }
#pragma omp parallel for reduction(task, + : of_both) schedule(dynamic)
    for (int i = 0; i < 12; i++) {
#pragma omp task in_reduction(+ : of_both)
        of_both += i;
    }
    printf("region_reduction: %ld %ld %ld %ld %ld\n", of_region, of_loop, of_sections, of_scope, of_both);
    return 0;
}
