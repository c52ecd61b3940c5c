/* A taskwait that waits for one of two tasks. */
#include "../../../ompt/programs/unfinished.h"

static int first, second;

int main(void) {
#pragma omp parallel num_threads(TEAM)
#pragma omp single
    {
#pragma omp task depend(out : first)
        finish(0);
#pragma omp task depend(out : second)
        finish(1);
#pragma omp taskwait depend(in : first)
        print_unfinished("taskwait", 1);
    }
    return first + second;
}
