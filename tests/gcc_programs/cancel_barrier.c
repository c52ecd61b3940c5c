/* A parallel region that is cancelled while members wait at a barrier; and regions that one member cancels behind a barrier
   which others have not left yet. */
#include "cancelling.h"

#include <omp.h>

enum { ROUNDS = 20 };
static int behind;

static void create(void) {
#pragma omp task
    {
        count_body();
        work();
    }
}

static void cancel_before_barrier(void) {
#pragma omp parallel
    {
        create();
        if (omp_get_thread_num() == omp_get_num_threads() - 1) {
            work();
            begin_cancel();
#pragma omp cancel parallel
        }
#pragma omp barrier
#pragma omp atomic
        behind++;
    }
    end_cancel();
}

static void cancel_behind_barrier(int round) {
#pragma omp parallel
    {
        create();
#pragma omp barrier
        if (omp_get_thread_num() == round % omp_get_num_threads()) {
#pragma omp cancel parallel
        }
#pragma omp barrier
#pragma omp cancellation point parallel
    }
}

int main(void) {
    for (int round = 0; round < ROUNDS; round++) cancel_behind_barrier(round);
    cancel_before_barrier();
    printf("cancel_barrier: behind %s\n", behind ? "some" : "none");
    print_late();
    return 0;
}
