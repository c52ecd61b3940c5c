/* A parallel region that one of its members cancels, with tasks that have not started. */
#include "cancelling.h"

#include <omp.h>

enum { TASKS = 40, ROUNDS = 3 };
static int after;

static void cancel(void) {
#pragma omp parallel
    {
        if (omp_get_thread_num() == 0) {
            for (int i = 0; i < TASKS; i++) {
#pragma omp task
                {
                    count_body();
                    work();
                }
            }
            begin_cancel();
#pragma omp cancel parallel
        }
#pragma omp cancellation point parallel
    }
    end_cancel();
}

int main(void) {
    for (int round = 0; round < ROUNDS; round++) cancel();
#pragma omp parallel
#pragma omp single
    for (int i = 0; i < 5; i++) {
#pragma omp task
        {
#pragma omp atomic
            after++;
        }
    }
    printf("cancel_parallel: after %d\n", after);
    print_late();
    return 0;
}
