/* Dependences by iterators: lists of a length that is known when the program runs, also of no element. */
#include "working.h"

static int cells[12], sum;

int main(int count, char **words) {
    (void)words;
    int last = 11 + count;
#pragma omp parallel
#pragma omp single
    {
        for (int i = 0; i < last; i++) {
#pragma omp task depend(out : cells[i]) firstprivate(i)
            cells[i] = i, work();
        }
#pragma omp task depend(iterator(i = 0 : last), in : cells[i])
        for (int i = 0; i < last; i++) sum += cells[i];
#pragma omp task depend(iterator(i = last - 1 : -1 : -1), inout : cells[i])
        for (int i = 0; i < last; i++) cells[i] *= 2;
#pragma omp task depend(iterator(i = 0 : count - 1), in : cells[i]) depend(in : cells[3])
        {
#pragma omp atomic
            sum += cells[3];
        }
#pragma omp task depend(iterator(i = 0 : count - 1), inout : cells[i])
        {
#pragma omp atomic
            sum += 1000;
        }
    }
    printf("iterators: %d %d\n", sum, cells[11]);
    return 0;
}
