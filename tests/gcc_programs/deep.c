/* Tasks in tasks: a tree of them, and a chain of 300. */
#include "working.h"

static int tree(int n) {
    int a = 0, b = 0;
    if (n < 2) return n;
#pragma omp task shared(a)
    a = tree(n - 1);
#pragma omp task shared(b)
    b = tree(n - 2);
#pragma omp taskwait
    return a + b;
}

static int chain(int left) {
    int below = 0;
    if (left == 0) return 0;
#pragma omp task shared(below)
    below = chain(left - 1);
#pragma omp taskwait
    return below + 1;
}

int main(void) {
    int a = 0, b = 0;
#pragma omp parallel
#pragma omp single
    {
        a = tree(12);
        b = chain(300);
    }
    printf("deep: %d %d\n", a, b);
    return 0;
}
