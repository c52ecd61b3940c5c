/* Taskloops with reductions: of the loop, of a taskgroup around it, of several variables, and with tasks inside. */
#include "working.h"

int main(void) {
    long sum = 0, product = 1, outer = 0, array[4] = {0};
#pragma omp parallel
#pragma omp single
    {
#pragma omp taskloop reduction(+ : sum) reduction(* : product) num_tasks(5)
        for (int i = 1; i <= 20; i++) {
            sum += i;
            if (i % 4 == 0) product = product * 3 % 1000003;
        }
#pragma omp taskgroup task_reduction(+ : outer)
        {
#pragma omp taskloop in_reduction(+ : outer) grainsize(2)
            for (int i = 0; i < 10; i++) outer += i, work();
        }
#pragma omp taskloop reduction(+ : array[:4]) num_tasks(6)
        for (int i = 0; i < 24; i++) {
#pragma omp task in_reduction(+ : array[:4])
            array[i % 4] += i;
        }
    }
    printf("taskloop_reduction: %ld %ld %ld %ld %ld\n", sum, product, outer, array[0], array[3]);
    return 0;
}
