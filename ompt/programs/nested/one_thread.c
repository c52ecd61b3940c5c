/* Inner regions of one thread, in members and in explicit tasks: their tasks run at once, and the outer ones go on. */
#include "nested.h"

static void begin_alone(int first) {
#pragma omp parallel num_threads(1)
    {
#pragma omp task firstprivate(first)
        finish(first);
#pragma omp task firstprivate(first)
        finish(first + 1);
#pragma omp taskwait
        print_unfinished_from("inner taskwait", first, 2);
#pragma omp parallel if (0)
#pragma omp task firstprivate(first)
        finish(first + 2);
    }
    print_unfinished_from("parallel", first, 3);
}

int main(void) {
    allow_inner_regions();
#pragma omp parallel
    {
        begin_alone(first_of_team());
#pragma omp single
        {
            for (int number = 4; number < 6; number++) {
#pragma omp task firstprivate(number)
                {
                    begin_alone(PER_TEAM * number);
                    finish(PER_TEAM * number + 3);
                }
            }
            for (int task = 4; task < 8; task++) {
#pragma omp task firstprivate(task)
                finish(4 * PER_TEAM + task);
            }
#pragma omp taskwait
            print_unfinished_from("outer taskwait", 4 * PER_TEAM, 8);
            print_unfinished_from("outer taskwait", 5 * PER_TEAM, 4);
        }
    }
    return 0;
}
