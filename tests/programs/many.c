/* 300 threads that fulfil an event each: a file takes 256. */
#include <omp.h>
#include <pthread.h>

enum { EVENTS = 300 };

static void *fulfil(void *event) {
    omp_fulfill_event((omp_event_handle_t)event);
    return 0;
}

int main(void) {
#pragma omp parallel num_threads(2)
#pragma omp single
    {
        for (int i = 0; i < EVENTS; i++) {
            omp_event_handle_t event;
            pthread_t thread;
#pragma omp task detach(event)
            {
            }
            pthread_create(&thread, 0, fulfil, (void *)event);
            pthread_join(thread, 0);
        }
#pragma omp taskwait
    }
}
