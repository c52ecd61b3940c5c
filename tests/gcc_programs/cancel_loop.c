/* Loops that are cancelled: the schedules, with a barrier behind them, and tasks in the iterations. */
#include "cancelling.h"

enum { LENGTH = 64 };
static int tasks, after;

int main(void) {
#pragma omp parallel
    {
#pragma omp for schedule(dynamic)
        for (int i = 0; i < LENGTH; i++) {
            count_body();
#pragma omp task
            {
                work();
#pragma omp atomic
                tasks++;
            }
            if (i == 3) {
                begin_cancel();
#pragma omp cancel for
            }
#pragma omp cancellation point for
        }
#pragma omp for schedule(static)
        for (int i = 0; i < LENGTH; i++) {
            if (i == 0) {
#pragma omp cancel for
            }
        }
#pragma omp single
        for (int i = 0; i < 5; i++) {
#pragma omp task
            {
#pragma omp atomic
                after++;
            }
        }
    }
    printf("cancel_loop: after %d, tasks %s\n", after, tasks <= LENGTH ? "fit" : "too many");
    print_late();
    return 0;
}
