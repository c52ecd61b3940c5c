/* Detached tasks that run at once: their creator goes on when the event is fulfilled. */
#include "working.h"

#include <omp.h>
#include <pthread.h>

static int count;

static void *fulfil(void *event) {
    work();
#pragma omp atomic
    count += 10;
    omp_fulfill_event((omp_event_handle_t)event);
    return NULL;
}

int main(void) {
    pthread_t threads[6];
#pragma omp parallel
#pragma omp single
    {
        for (int i = 0; i < 6; i++) {
            omp_event_handle_t event;
#pragma omp task detach(event) if (0) shared(threads)
            pthread_create(&threads[i], NULL, fulfil, (void *)event);
#pragma omp atomic
            count += 1;
        }
#pragma omp task if (0)
        count += 100;
    }
    for (int i = 0; i < 6; i++) pthread_join(threads[i], NULL);
    printf("detach_undeferred: %d\n", count);
    return 0;
}
