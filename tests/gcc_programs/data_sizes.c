/* Tasks without data, with one byte, and with many kilobytes. */
#include "working.h"

enum { LARGE = 20000 };
struct large {
    char at[LARGE];
};
struct odd {
    char at[3];
};

static int sum;

static void add(int what) {
#pragma omp atomic
    sum += what;
}

int main(void) {
    struct large large;
    struct odd odd = {{1, 2, 3}};
    char one = 5;
    for (int i = 0; i < LARGE; i++) large.at[i] = (char)(i % 100);
#pragma omp parallel
#pragma omp single
    {
        for (int i = 0; i < 12; i++) {
#pragma omp task
            add(1), work();
#pragma omp task firstprivate(one)
            add(one);
#pragma omp task firstprivate(odd, one)
            add(odd.at[2] + one);
            large.at[LARGE - 1] = (char)i;
#pragma omp task firstprivate(large)
            add(large.at[LARGE - 1] + large.at[50]), work();
#pragma omp task firstprivate(large) if (0)
            add(large.at[99]);
        }
    }
    printf("data_sizes: %d\n", sum);
    return 0;
}
