/* A detachable task, whose event is fulfilled by a thread that is not OpenMP's, and one whose event is fulfilled early. */
#include "unfinished.h"

#include <omp.h>
#include <pthread.h>

static void *fulfil(void *event) {
    finish(0);
    omp_fulfill_event((omp_event_handle_t)event);
    return NULL;
}

int main(void) {
    pthread_t thread;
#pragma omp parallel num_threads(TEAM)
#pragma omp single
    {
        omp_event_handle_t late, early;
#pragma omp task detach(late)
        pthread_create(&thread, NULL, fulfil, (void *)late);
#pragma omp task detach(early)
        {
            omp_fulfill_event(early);
            finish(1);
        }
#pragma omp taskwait
        print_unfinished("taskwait", 2);
    }
    return pthread_join(thread, NULL);
}
