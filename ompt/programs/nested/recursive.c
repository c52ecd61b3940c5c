/* Recursive regions: each of two tasks of a region begins a region of its own, and waits for what it created there. */
#include "nested.h"

enum { DEPTH = 3 };

static void divide(int depth, int number) {
#pragma omp parallel num_threads(2)
#pragma omp single
    {
        for (int half = 0; half < 2; half++) {
            int below = 2 * number + half;
#pragma omp task firstprivate(depth, below)
            {
                if (depth < DEPTH) divide(depth + 1, below);
                finish(below);
            }
        }
#pragma omp taskwait
        print_unfinished_from("taskwait", 2 * number, 2);
    }
}

int main(void) {
    allow_inner_regions();
    divide(1, 1);
    return 0;
}
