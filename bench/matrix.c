/* A blocked product of two matrices, each block of the result by tasks that depend on one another. */
#include <omp.h>
#include <stdio.h>
#include <stdlib.h>

enum { BLOCK = 32 };

static void multiply(int size, const double *left, const double *right, double *result) {
    for (int i = 0; i < BLOCK; i++)
        for (int k = 0; k < BLOCK; k++)
            for (int j = 0; j < BLOCK; j++) result[i * size + j] += left[i * size + k] * right[k * size + j];
}

int main(int count, char **words) {
    int size = BLOCK * (count > 1 ? atoi(words[1]) : 16);
    double *matrices[3];
    for (int i = 0; i < 3; i++) matrices[i] = calloc((size_t)size * (size_t)size, sizeof(double));
    double *left = matrices[0], *right = matrices[1], *result = matrices[2];
    double begin = omp_get_wtime();
#pragma omp parallel
#pragma omp single
    for (int i = 0; i < size; i += BLOCK)
        for (int j = 0; j < size; j += BLOCK)
            for (int k = 0; k < size; k += BLOCK) {
                const double *one = left + i * size + k, *other = right + k * size + j;
                double *block = result + i * size + j;
#pragma omp task depend(in : one[0], other[0]) depend(inout : block[0])
                multiply(size, one, other, block);
            }
    printf("%.6f\n", omp_get_wtime() - begin);
}
