/* Fibonacci numbers by a task for each call: as many tasks as work. */
#include <omp.h>
#include <stdio.h>
#include <stdlib.h>

static int fib(int n) {
    int one, other;
    if (n < 2) return n;
#pragma omp task shared(one)
    one = fib(n - 1);
#pragma omp task shared(other)
    other = fib(n - 2);
#pragma omp taskwait
    return one + other;
}

int main(int count, char **words) {
    int n = count > 1 ? atoi(words[1]) : 24;
    double begin = omp_get_wtime();
#pragma omp parallel
#pragma omp single
    n = fib(n);
    printf("%.6f\n", omp_get_wtime() - begin);
}
