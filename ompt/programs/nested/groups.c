/* Taskgroups around regions and inside of them: a taskgroup waits for the tasks of its own team and for their children. */
#include "nested.h"

static void begin_region(int first) {
#pragma omp parallel num_threads(2)
#pragma omp single
    {
#pragma omp taskgroup
        for (int task = 0; task < 2; task++) {
#pragma omp task firstprivate(first, task)
            {
#pragma omp task firstprivate(first, task)
                finish(first + 2 + task);
                finish(first + task);
            }
        }
        print_unfinished_from("inner taskgroup", first, 4);
    }
}

int main(void) {
    allow_inner_regions();
#pragma omp parallel
#pragma omp single
    {
#pragma omp taskgroup
        {
            for (int number = 0; number < 2; number++) {
#pragma omp task firstprivate(number)
                {
                    begin_region(PER_TEAM * number);
                    finish(PER_TEAM * number + 4);
                }
            }
            begin_region(2 * PER_TEAM);
            for (int task = 4; task < 8; task++) {
#pragma omp task firstprivate(task)
                finish(2 * PER_TEAM + task);
            }
        }
        print_unfinished_from("taskgroup", 4, 1);
        print_unfinished_from("taskgroup", PER_TEAM + 4, 1);
        print_unfinished_from("taskgroup", 2 * PER_TEAM + 4, 4);
    }
    return 0;
}
