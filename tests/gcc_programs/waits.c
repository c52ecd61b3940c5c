/* Taskwaits in tasks, taskgroups in taskgroups, and barriers, each with tasks and their children before it. */
#include "working.h"

static int sum, wrong, children[6];

static void family(int number) {
    for (int i = 0; i < 3; i++) {
#pragma omp task firstprivate(number)
        {
            work();
#pragma omp atomic
            children[number]++;
        }
    }
}

static void expect(int number, int least) {
    int found;
#pragma omp atomic read
    found = children[number];
    if (found < least) {
#pragma omp atomic
        wrong++;
    }
}

int main(void) {
#pragma omp parallel
    {
#pragma omp master
        {
#pragma omp task
            {
                family(0);
#pragma omp taskwait
                expect(0, 3);
                family(0);
            }
#pragma omp taskgroup
            {
#pragma omp task
                family(1);
#pragma omp taskgroup
                family(2);
                expect(2, 3);
#pragma omp taskwait
                family(1);
            }
            expect(1, 6);
            family(3);
        }
#pragma omp barrier
        expect(3, 3);
        expect(0, 6);
#pragma omp barrier
#pragma omp master
        family(4);
#pragma omp barrier
        expect(4, 3);
    }
    for (int i = 0; i < 6; i++) sum += children[i];
    printf("waits: %d %d\n", sum, wrong);
    return 0;
}
