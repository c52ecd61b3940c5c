/* Detached tasks whose events are fulfilled before their bodies end: before they start, inside them, by a child. Within
   taskwait libgomp runs no grandchildren, so with one thread a taskgroup has to wait. */
#include "working.h"

#include <omp.h>

static int count;

int main(void) {
#pragma omp parallel
#pragma omp single
    {
#pragma omp taskgroup
        for (int i = 0; i < 12; i++) {
            omp_event_handle_t event;
#pragma omp task detach(event) firstprivate(i)
            {
                if (i % 3 == 0) omp_fulfill_event(event);
                if (i % 3 == 1) {
#pragma omp task firstprivate(event)
                    omp_fulfill_event(event);
                }
                work();
#pragma omp atomic
                count++;
            }
            if (i % 3 == 2) omp_fulfill_event(event);
        }
        count += 100;
    }
    printf("detach_early: %d\n", count);
    return 0;
}
