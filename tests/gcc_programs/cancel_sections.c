/* Sections of which one cancels the others, with tasks before and behind. */
#include "cancelling.h"

static int tasks;

int main(void) {
#pragma omp parallel
    {
#pragma omp single nowait
        for (int i = 0; i < 8; i++) {
#pragma omp task
            {
                work();
#pragma omp atomic
                tasks++;
            }
        }
#pragma omp sections
        {
#pragma omp section
            {
                begin_cancel();
#pragma omp cancel sections
            }
#pragma omp section
            {
#pragma omp cancellation point sections
                count_body();
            }
#pragma omp section
            count_body();
        }
#pragma omp single
        {
#pragma omp task
            {
#pragma omp atomic
                tasks++;
            }
        }
    }
    printf("cancel_sections: tasks %d\n", tasks);
    print_late();
    return 0;
}
