/* A taskgroup that is cancelled by a part of a taskloop whose parts run at once: by if(0), since libgomp defers no more
   tasks, or inside a final task. libgomp drops none of these. */
#include "cancelling.h"

enum { PARTS = 1200 };

static void run_loops(void) {
#pragma omp taskloop if (0) num_tasks(20)
    for (int i = 0; i < 20; i++) {
        count_body();
        if (i == 3) {
            begin_cancel();
#pragma omp cancel taskgroup
        }
    }
    end_cancel();
#pragma omp taskloop num_tasks(PARTS)
    for (int i = 0; i < PARTS; i++) {
        count_body();
        if (i == 3) {
            begin_cancel();
#pragma omp cancel taskgroup
        }
    }
    end_cancel();
#pragma omp task final(1)
    {
#pragma omp taskloop num_tasks(20)
        for (int i = 0; i < 20; i++) {
            count_body();
            if (i == 3) {
                begin_cancel();
#pragma omp cancel taskgroup
            }
        }
    }
#pragma omp taskwait
}

int main(void) {
#pragma omp parallel
#pragma omp single
    run_loops();
    printf("cancel_undeferred:\n");
    print_late();
    return 0;
}
