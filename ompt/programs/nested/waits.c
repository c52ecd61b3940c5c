/* Taskwaits in inner regions: six children, the first of which creates two more and waits for them. */
#include "nested.h"

static void create_children(int first) {
    for (int task = 0; task < 6; task++) {
#pragma omp task firstprivate(first, task)
        {
            for (int below = 0; task == 0 && below < 2; below++) {
#pragma omp task firstprivate(first, below)
                finish(first + 6 + below);
            }
#pragma omp taskwait
            if (task == 0) print_unfinished_from("inner taskwait", first + 6, 2);
            finish(first + task);
        }
    }
#pragma omp taskwait
    print_unfinished_from("taskwait", first, PER_TEAM);
}

int main(void) {
    allow_inner_regions();
#pragma omp parallel
    {
#pragma omp parallel num_threads(2)
#pragma omp single
        create_children(first_of_team());
    }
    return 0;
}
