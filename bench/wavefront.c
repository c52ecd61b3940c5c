/* wavefront BLOCKS ROUNDS: rounds over a square of blocks, each block by a task that depends on those above it
   and to its left, in a taskgroup; and then a task that reads the last block, and a taskwait. */
#include <omp.h>
#include <stdio.h>
#include <stdlib.h>

enum { BLOCK = 16 };

static void update(int size, double *block) {
    for (int i = 0; i < BLOCK; i++)
        for (int j = 0; j < BLOCK; j++) {
            double *at = block + i * size + j;
            *at = 0.5 * (at[-1] + at[-size]) + 1;
        }
}

int main(int count, char **words) {
    int blocks = count > 1 ? atoi(words[1]) : 16, rounds = count > 2 ? atoi(words[2]) : 32;
    int size = BLOCK * blocks + 1;
    double *square = calloc((size_t)size * (size_t)size, sizeof(double)), *first = square + size + 1, sum = 0;
    double begin = omp_get_wtime();
#pragma omp parallel
#pragma omp single
    for (int round = 0; round < rounds; round++) {
        double *block = first;
#pragma omp taskgroup
        for (int i = 0; i < blocks; i++)
            for (int j = 0; j < blocks; j++) {
                block = first + (i * size + j) * BLOCK;
                double *above = i ? block - size * BLOCK : square, *left = j ? block - BLOCK : square;
#pragma omp task depend(in : above[0], left[0]) depend(out : block[0])
                update(size, block);
            }
#pragma omp task shared(sum) depend(in : block[0]) depend(inout : sum)
        sum += block[0];
#pragma omp taskwait
    }
    double seconds = omp_get_wtime() - begin;
    if (sum < 0) return 1;
    printf("%.6f\n", seconds);
}
