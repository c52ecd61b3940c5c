/* A taskloop whose taskgroup a part of it cancels, and taskgroups in taskgroups, of which the inner ones are cancelled. */
#include "cancelling.h"

static int outer;

int main(void) {
#pragma omp parallel
#pragma omp single
    {
#pragma omp taskloop num_tasks(32)
        for (int i = 0; i < 32; i++) {
            count_body();
            work();
            if (i == 1) {
                begin_cancel();
#pragma omp cancel taskgroup
            }
        }
        end_cancel();
#pragma omp taskgroup
        for (int i = 0; i < 4; i++) {
#pragma omp task
            {
#pragma omp taskgroup
                for (int j = 0; j < 8; j++) {
#pragma omp task firstprivate(j)
                    {
                        work();
                        if (j == 0) {
#pragma omp cancel taskgroup
                        }
                    }
                }
#pragma omp atomic
                outer++;
            }
        }
    }
    printf("cancel_taskloop: outer %d\n", outer);
    print_late();
    return 0;
}
