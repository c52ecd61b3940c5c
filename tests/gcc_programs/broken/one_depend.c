/* Tasks that depend on two others, in the older layout of lists, and in both orders. */
#include "../../../ompt/programs/unfinished.h"

static int first, second;

int main(void) {
#pragma omp parallel num_threads(TEAM)
#pragma omp single
    {
#pragma omp task depend(out : first)
        finish(0);
#pragma omp task depend(out : second)
        mark(1);
#pragma omp task depend(in : first, second)
        {
            print_unfinished("start", 1);
            finish(2);
        }
#pragma omp task depend(in : second, first)
        {
            print_unfinished("start", 1);
            finish(3);
        }
    }
    return first + second;
}
