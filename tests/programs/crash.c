/* A task that crashes, among others. */
#include <unistd.h>

int main(void) {
#pragma omp parallel num_threads(4)
#pragma omp single
    for (int task = 0; task < 20; task++) {
#pragma omp task firstprivate(task)
        {
            usleep(100);
            if (task == 10) *(volatile int *)0 = 1;
        }
    }
}
