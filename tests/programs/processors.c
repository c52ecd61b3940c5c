/* Prints how many threads a team has, how many processors the runtime counts, and on how many a thread may run at most. */
#define _GNU_SOURCE
#include <omp.h>
#include <sched.h>
#include <stdio.h>

int main(void) {
    int threads = 0, most = 0;
#pragma omp parallel reduction(max : threads, most)
    {
        cpu_set_t own;
        sched_getaffinity(0, sizeof own, &own);
        threads = omp_get_num_threads();
        most = CPU_COUNT(&own);
    }
    printf("%d threads, %d processors, at most %d\n", threads, omp_get_num_procs(), most);
}
