/* Data of tasks that need an alignment of 32, 64 or 128 bytes, in tasks that wait, run at once and are parts of loops. */
#include "working.h"

#include <stdint.h>

struct wide {
    _Alignas(64) char text[100];
};
struct wider {
    _Alignas(128) int number;
};

static int wrong, sum;

static void look(const void *at, unsigned alignment, int what) {
    if ((uintptr_t)at % alignment) {
#pragma omp atomic
        wrong++;
    }
#pragma omp atomic
    sum += what;
}

int main(void) {
    struct wide wide = {"abc"};
    struct wider wider = {7};
    _Alignas(32) double numbers[4] = {1, 2, 3, 4};
#pragma omp parallel
#pragma omp single
    {
        for (int i = 0; i < 20; i++) {
#pragma omp task firstprivate(wide)
            look(&wide, 64, wide.text[2]), work();
#pragma omp task firstprivate(wider, numbers)
            look(&wider, 128, wider.number), look(numbers, 32, (int)numbers[3]);
#pragma omp task firstprivate(wide, wider) if (0)
            look(&wide, 64, 1), look(&wider, 128, 1);
        }
#pragma omp taskloop firstprivate(wider) num_tasks(5)
        for (int i = 0; i < 10; i++) look(&wider, 128, wider.number);
    }
    printf("alignments: %d wrong, %d\n", wrong, sum);
    return 0;
}
