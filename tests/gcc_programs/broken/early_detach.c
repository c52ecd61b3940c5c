/* Detached tasks that threads of the program complete, which a taskwait waits for. */
#include "../../../ompt/programs/unfinished.h"

#include <omp.h>
#include <pthread.h>
#include <stdint.h>

enum { TASKS = 4 };
static pthread_t threads[TASKS];
static omp_event_handle_t events[TASKS];

static void *fulfil(void *number) {
    finish((int)(intptr_t)number);
    omp_fulfill_event(events[(intptr_t)number]);
    return NULL;
}

int main(void) {
#pragma omp parallel num_threads(TEAM)
#pragma omp single
    {
        for (int task = 0; task < TASKS; task++) {
            omp_event_handle_t event;
#pragma omp task detach(event) firstprivate(task)
            {
                events[task] = event;
                pthread_create(&threads[task], NULL, fulfil, (void *)(intptr_t)task);
            }
        }
#pragma omp taskwait
        print_unfinished("taskwait", TASKS);
    }
    for (int task = 0; task < TASKS; task++) pthread_join(threads[task], NULL);
    return 0;
}
