/* exit() inside a task, while other threads of the team may not have woken. */
#include <stdlib.h>
#include <unistd.h>

int main(void) {
#pragma omp parallel num_threads(4)
#pragma omp single
    {
#pragma omp task
        {
            usleep(1000);
            exit(3);
        }
#pragma omp taskwait
    }
}
