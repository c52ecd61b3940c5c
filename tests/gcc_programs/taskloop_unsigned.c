/* Taskloops whose bounds need 64 bits without a sign, upwards and downwards. */
#include "working.h"

static unsigned long long sum;

int main(void) {
    const unsigned long long high = ~0ull - 20;
#pragma omp parallel
#pragma omp single
    {
#pragma omp taskloop num_tasks(5)
        for (unsigned long long i = high; i < high + 17; i += 2) {
#pragma omp atomic
            sum += i - high;
        }
#pragma omp taskloop grainsize(3)
        for (unsigned long long i = high + 10; i > high; i--) {
            work();
#pragma omp atomic
            sum += i - high;
        }
    }
    printf("taskloop_unsigned: %llu\n", sum);
    return 0;
}
