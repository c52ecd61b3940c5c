/* Dependences inside and around regions: tasks that depend on each other begin regions, whose tasks do too. */
#include "nested.h"

static void create_chain(int first) {
    int one = 0, two = 0;
#pragma omp task depend(out : one) firstprivate(first)
    finish(first);
#pragma omp task depend(in : one) depend(out : two) firstprivate(first)
    {
        print_unfinished_from("inner depend", first, 1);
        finish(first + 1);
    }
#pragma omp task depend(inout : one) depend(in : two) firstprivate(first)
    {
        print_unfinished_from("inner depend", first, 2);
        finish(first + 2);
    }
#pragma omp taskwait
    print_unfinished_from("inner taskwait", first, 3);
}

static void begin_region(int first) {
#pragma omp parallel num_threads(2)
#pragma omp single
    create_chain(first);
}

int main(void) {
    int one = 0, two = 0;
    allow_inner_regions();
#pragma omp parallel
#pragma omp single
    {
#pragma omp task depend(out : one)
        {
            begin_region(0);
            finish(3);
        }
#pragma omp task depend(in : one) depend(out : two)
        {
            print_unfinished("depend", 4);
            begin_region(PER_TEAM);
            finish(PER_TEAM + 3);
        }
#pragma omp task depend(inout : one) depend(in : two)
        {
            print_unfinished("depend", 4);
            print_unfinished_from("depend", PER_TEAM, 4);
            finish(2 * PER_TEAM);
        }
#pragma omp taskwait
        print_unfinished_from("taskwait", 3, 1);
        print_unfinished_from("taskwait", PER_TEAM + 3, 1);
        print_unfinished_from("taskwait", 2 * PER_TEAM, 1);
    }
    return one + two;
}
