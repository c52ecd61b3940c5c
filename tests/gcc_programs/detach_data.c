/* Detached tasks with data of their own and with dependences: the next task starts when the event is fulfilled. */
#include "working.h"

#include <omp.h>

struct numbers {
    long at[12];
};

static long chain, sum;
static omp_event_handle_t waiting;

int main(void) {
    struct numbers numbers = {{1, 2, 3, 4, 5, 6, 7, 8, 9, 10, 11, 12}};
#pragma omp parallel
#pragma omp single
    {
        for (int i = 0; i < 10; i++) {
            omp_event_handle_t event;
            numbers.at[i] += i;
#pragma omp task detach(event) firstprivate(numbers, i) depend(inout : chain)
            {
                chain = chain * 2 + numbers.at[i];
                waiting = event;
#pragma omp task
                {
                    work();
                    omp_fulfill_event(waiting);
                }
            }
        }
#pragma omp task depend(in : chain)
        sum = chain;
    }
    printf("detach_data: %ld\n", sum);
    return 0;
}
