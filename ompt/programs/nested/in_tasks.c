/* Regions in explicit tasks: the task that begins a region goes on behind it, creates one more, and waits for both. */
#include "nested.h"

static void begin_region(int first) {
#pragma omp task firstprivate(first)
    finish(first);
#pragma omp parallel num_threads(2)
#pragma omp single
    {
        for (int task = 1; task < 5; task++) {
#pragma omp task firstprivate(first, task)
            finish(first + task);
        }
#pragma omp taskwait
        print_unfinished_from("inner taskwait", first + 1, 4);
    }
#pragma omp task firstprivate(first)
    finish(first + 5);
#pragma omp taskwait
    print_unfinished_from("outer taskwait", first, 6);
}

int main(void) {
    allow_inner_regions();
#pragma omp parallel
#pragma omp single
    {
        for (int number = 0; number < 3; number++) {
#pragma omp task firstprivate(number)
            {
                begin_region(PER_TEAM * number);
                finish(PER_TEAM * number + 6);
            }
        }
#pragma omp taskwait
        print_unfinished("taskwait", 7);
        print_unfinished_from("taskwait", PER_TEAM, 7);
        print_unfinished_from("taskwait", 2 * PER_TEAM, 7);
    }
    return 0;
}
