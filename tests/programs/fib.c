/* fib N CUTOFF: a task for each call above the cutoff. */
#include <stdio.h>
#include <stdlib.h>
static int cutoff;
static long plain(int n) { return n < 2 ? n : plain(n - 1) + plain(n - 2); }
static long fib(int n) {
    if (n <= cutoff) return plain(n);
    long a, b;
#pragma omp task shared(a)
    a = fib(n - 1);
#pragma omp task shared(b)
    b = fib(n - 2);
#pragma omp taskwait
    return a + b;
}
int main(int count, char **words) {
    long result = 0;
    cutoff = count > 2 ? atoi(words[2]) : 2;
#pragma omp parallel
#pragma omp single
    result = fib(atoi(words[1]));
    printf("%ld\n", result);
    return 0;
}
