/* Untied tasks in inner regions, which may resume on another thread of the inner team. */
#include "nested.h"

int main(void) {
    allow_inner_regions();
#pragma omp parallel
#pragma omp parallel num_threads(2)
#pragma omp single
    {
        int first = first_of_team();
        for (int task = 0; task < 4; task++) {
#pragma omp task untied firstprivate(first, task)
            {
#pragma omp task firstprivate(first, task)
                finish(first + 4 + task);
#pragma omp taskwait
                finish(first + task);
            }
        }
#pragma omp taskwait
        print_unfinished_from("taskwait", first, PER_TEAM);
    }
    return 0;
}
