/* Detached tasks across regions: the event of a task of the outer team is fulfilled by a task of an inner one, and that
   of a task of an inner team by a member of the outer one. */
#include "nested.h"

static _Atomic omp_event_handle_t outer_event, inner_event;

static omp_event_handle_t event_of(_Atomic omp_event_handle_t *event) {
    while (!atomic_load(event)) usleep(TASK_MICROSECONDS / 10);
    return atomic_load(event);
}

static void fulfil_late(_Atomic omp_event_handle_t *event, int task) {
    omp_event_handle_t made = event_of(event);
    usleep(TASK_MICROSECONDS);
    mark(task);
    omp_fulfill_event(made);
}

static void create_and_wait(void) {
    omp_event_handle_t outer, inner;
#pragma omp task detach(outer)
    is_task(0);
    atomic_store(&outer_event, outer);
#pragma omp parallel num_threads(2)
#pragma omp single
    {
#pragma omp task detach(inner)
        is_task(1);
        atomic_store(&inner_event, inner);
#pragma omp taskwait
        print_unfinished_from("inner taskwait", 1, 1);
    }
#pragma omp taskwait
    print_unfinished("outer taskwait", 1);
}

static void fulfil_both(void) {
    fulfil_late(&inner_event, 1);
#pragma omp parallel num_threads(2)
#pragma omp single
    {
#pragma omp task
        {
            fulfil_late(&outer_event, 0);
            finish(2);
        }
#pragma omp taskwait
        print_unfinished_from("inner taskwait", 2, 1);
    }
}

int main(void) {
    allow_inner_regions();
#pragma omp parallel num_threads(2)
    {
        if (omp_get_num_threads() == 2 && omp_get_thread_num() == 0) create_and_wait();
        if (omp_get_thread_num() == 1) fulfil_both();
    }
    return 0;
}
