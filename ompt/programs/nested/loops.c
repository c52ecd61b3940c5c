/* Taskloops in inner regions, each in a taskgroup of its own, and loops whose barriers wait for tasks. */
#include "nested.h"

int main(void) {
    allow_inner_regions();
#pragma omp parallel
#pragma omp parallel num_threads(2)
    {
        int first = first_of_team();
#pragma omp single
        {
#pragma omp taskloop grainsize(1) firstprivate(first)
            for (int task = 0; task < 4; task++) finish(first + task);
            print_unfinished_from("taskloop", first, 4);
        }
#pragma omp for schedule(static, 1)
        for (int task = 4; task < 8; task++) {
#pragma omp task firstprivate(first, task)
            finish(first + task);
        }
#pragma omp single
        print_unfinished_from("for", first + 4, 4);
    }
    return 0;
}
