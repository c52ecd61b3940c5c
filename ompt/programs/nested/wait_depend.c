/* Taskwaits with dependences, in the outer team and in an inner one: each waits for one of two tasks. */
#include "nested.h"

static void wait_for_one(int first, const char *wait) {
    int one = 0, two = 0;
#pragma omp task depend(out : one) firstprivate(first)
    finish(first);
#pragma omp task depend(out : two) firstprivate(first)
    finish(first + 1);
#pragma omp taskwait depend(in : two)
    print_unfinished_from(wait, first + 1, 1);
#pragma omp taskwait
    print_unfinished_from("taskwait", first, 2);
}

int main(void) {
    allow_inner_regions();
#pragma omp parallel
#pragma omp single
    {
        wait_for_one(0, "outer taskwait depend");
#pragma omp parallel num_threads(2)
#pragma omp single
        wait_for_one(PER_TEAM, "inner taskwait depend");
        wait_for_one(2 * PER_TEAM, "outer taskwait depend");
    }
    return 0;
}
