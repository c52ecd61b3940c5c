/* Dependences by several iterators in one clause. */
#include "working.h"

static int cells[4][4], sum;

int main(void) {
#pragma omp parallel
#pragma omp single
    {
        for (int i = 0; i < 16; i++) {
#pragma omp task depend(out : cells[i / 4][i % 4]) firstprivate(i)
            cells[i / 4][i % 4] = i, work();
        }
#pragma omp task depend(iterator(i = 0 : 4 : 2, j = 0 : 2), inout : cells[i + j][j], cells[j][i])
        for (int i = 0; i < 2; i++) cells[i][i] += 100;
#pragma omp task depend(iterator(i = 0 : 4, j = 0 : 4), in : cells[i][j])
        for (int i = 0; i < 4; i++)
            for (int j = 0; j < 4; j++) {
#pragma omp atomic
                sum += cells[i][j];
            }
    }
    printf("iterators_inside: %d\n", sum);
    return 0;
}
