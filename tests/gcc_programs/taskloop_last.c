/* Taskloops with lastprivate and firstprivate variables, of which those in a struct are large. */
#include "working.h"

struct numbers {
    int at[40];
};

int main(void) {
    int last = -1, outer = -1, base = 5;
    struct numbers first = {{1, 2, 3}}, copy = {{0}};
#pragma omp parallel
#pragma omp single
    {
#pragma omp taskloop lastprivate(last) firstprivate(base) grainsize(4)
        for (int i = 0; i < 23; i++) last = base + i, work();
#pragma omp taskloop lastprivate(copy) firstprivate(first) num_tasks(3)
        for (int i = 0; i < 9; i++) {
            copy = first;
            copy.at[3] = i;
        }
#pragma omp taskloop lastprivate(outer) collapse(2) num_tasks(4)
        for (int i = 0; i < 4; i++)
            for (int j = 0; j < 3; j++) outer = 10 * i + j;
    }
    printf("taskloop_last: %d, %d %d, %d\n", last, copy.at[2], copy.at[3], outer);
    return 0;
}
