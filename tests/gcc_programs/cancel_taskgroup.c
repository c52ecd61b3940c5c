/* A taskgroup that a task cancels: the tasks that have not started are dropped. Those outside of it run. */
#include "cancelling.h"

enum { TASKS = 40 };
static int outside;

int main(void) {
#pragma omp parallel
#pragma omp single
    {
        for (int i = 0; i < 6; i++) {
#pragma omp task
            {
#pragma omp atomic
                outside++;
            }
        }
#pragma omp taskgroup
        for (int i = 0; i < TASKS; i++) {
#pragma omp task firstprivate(i)
            {
                count_body();
                work();
                if (i == 2) {
                    begin_cancel();
#pragma omp cancel taskgroup
                }
#pragma omp cancellation point taskgroup
            }
        }
#pragma omp taskwait
    }
    printf("cancel_taskgroup: outside %d\n", outside);
    print_late();
    return 0;
}
