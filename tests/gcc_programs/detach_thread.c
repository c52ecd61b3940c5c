/* Detached tasks that threads of the program complete, which use nothing else of OpenMP. */
#include "working.h"

#include <omp.h>
#include <pthread.h>

enum { TASKS = 8 };
static pthread_t threads[TASKS];
static int count;

static void *fulfil(void *event) {
    work();
    omp_fulfill_event((omp_event_handle_t)event);
    return NULL;
}

int main(void) {
#pragma omp parallel
#pragma omp single
    {
#pragma omp taskgroup
        for (int i = 0; i < TASKS; i++) {
            omp_event_handle_t event;
#pragma omp task detach(event) firstprivate(i)
            {
#pragma omp atomic
                count++;
                pthread_create(&threads[i], NULL, fulfil, (void *)event);
            }
        }
        count += 100;
    }
    for (int i = 0; i < TASKS; i++) pthread_join(threads[i], NULL);
    printf("detach_thread: %d\n", count);
    return 0;
}
