/* Regions to depth four: at each depth one member creates tasks before and behind the region that it begins. */
#include "nested.h"

static void go_down(int depth) {
    int first = (depth - 1) * PER_TEAM;
#pragma omp parallel num_threads(2)
#pragma omp single
    {
        for (int task = 0; task < 3; task++) {
#pragma omp task firstprivate(first, task)
            finish(first + task);
        }
        if (depth < LEVELS) go_down(depth + 1);
        for (int task = 3; task < 6; task++) {
#pragma omp task firstprivate(first, task)
            finish(first + task);
        }
#pragma omp taskwait
        print_unfinished_from("taskwait", first, 6);
    }
}

int main(void) {
    allow_inner_regions();
    go_down(1);
    return 0;
}
