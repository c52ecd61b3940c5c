/* Taskgroups that are cancelled, with detached tasks that fulfil their events themselves, which those that are dropped never
   do; and with tasks that are dropped after their creator fulfilled their events. */
#include "cancelling.h"

#include <omp.h>

enum { TASKS = 40 };
static int gate, is_open;

static void create(int task) {
    omp_event_handle_t event;
#pragma omp task detach(event) firstprivate(task)
    {
        count_body();
        work();
        omp_fulfill_event(event);
        if (task == 2) {
            begin_cancel();
#pragma omp cancel taskgroup
        }
    }
}

/* Waits until the tasks behind this one are created, so that their events are still theirs. */
static void wait_for_gate(void) {
    int now = omp_get_num_threads() == 1;
    while (!now) {
#pragma omp atomic read
        now = is_open;
    }
}

static void create_early(void) {
    omp_event_handle_t event;
#pragma omp task detach(event) depend(in : gate)
    count_body();
    omp_fulfill_event(event);
}

static void cancel_early(void) {
#pragma omp taskgroup
    {
#pragma omp task depend(out : gate)
        {
            wait_for_gate();
            begin_cancel();
#pragma omp cancel taskgroup
        }
        for (int task = 0; task < 4; task++) create_early();
#pragma omp atomic write
        is_open = 1;
    }
    end_cancel();
}

int main(void) {
#pragma omp parallel
#pragma omp single
    {
#pragma omp taskgroup
        for (int task = 0; task < TASKS; task++) create(task);
        end_cancel();
        cancel_early();
    }
    printf("cancel_detach: %d\n", gate);
    print_late();
    return 0;
}
