/* Detached tasks that another task completes, behind the end of most bodies: that whose body runs last. */
#include "working.h"

#include <omp.h>

enum { TASKS = 10 };
static omp_event_handle_t events[TASKS];
static int count;

static void fulfil_all(void) {
    for (int i = 0; i < TASKS; i++) omp_fulfill_event(events[i]);
}

int main(void) {
#pragma omp parallel
#pragma omp single
    {
        for (int i = 0; i < TASKS; i++) {
            omp_event_handle_t event;
#pragma omp task detach(event) firstprivate(i)
            {
                int now;
                events[i] = event;
                work();
#pragma omp atomic capture seq_cst
                now = ++count;
                if (now == TASKS) fulfil_all();
            }
        }
#pragma omp taskwait
        count += 100;
    }
    printf("detach_late: %d\n", count);
    return 0;
}
