/* A task that depends on two others, in the newer layout of lists. */
#include "../../../ompt/programs/unfinished.h"

static int first, second;

int main(void) {
#pragma omp parallel num_threads(TEAM)
#pragma omp single
    {
#pragma omp task depend(out : first)
        finish(0);
#pragma omp task depend(out : second)
        mark(1);
#pragma omp task depend(mutexinoutset : first) depend(in : second)
        {
            print_unfinished("start", 2);
            finish(2);
        }
    }
    return first + second;
}
