/* Taskgroups with reductions, one inside another, with tasks that create tasks. */
#include "working.h"

int main(void) {
    long sum = 0, inner = 0, greatest = -1;
#pragma omp parallel
#pragma omp single
    {
#pragma omp taskgroup task_reduction(+ : sum) task_reduction(max : greatest)
        {
            for (long i = 0; i < 20; i++) {
#pragma omp task in_reduction(+ : sum) in_reduction(max : greatest) firstprivate(i)
                {
                    sum += i;
                    if (i > greatest) greatest = i;
#pragma omp task in_reduction(+ : sum) firstprivate(i)
                    sum += 100, work();
                }
            }
#pragma omp taskgroup task_reduction(+ : inner)
            for (int i = 0; i < 5; i++) {
#pragma omp task in_reduction(+ : inner)
                inner += i;
            }
        }
    }
    printf("taskgroup_reduction: %ld %ld %ld\n", sum, greatest, inner);
    return 0;
}
