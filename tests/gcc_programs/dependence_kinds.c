/* Dependences in the newer layout of lists: mutexinoutset among others, in one list and in several. */
#include "working.h"

static int a, b, c, product = 1;

int main(void) {
#pragma omp parallel
#pragma omp single
    {
        for (int round = 0; round < 6; round++) {
#pragma omp task depend(out : a, b)
            a = round, b = 2 * round;
            for (int i = 0; i < 4; i++) {
#pragma omp task depend(mutexinoutset : a) depend(in : b) firstprivate(i)
                a += i + b, work();
            }
#pragma omp task depend(mutexinoutset : a, c) depend(inout : b)
            a++, c += b, b++;
#pragma omp task depend(in : a, b, c)
            {
#pragma omp atomic
                product += a + b + c;
            }
        }
    }
    printf("dependence_kinds: %d %d %d %d\n", a, b, c, product);
    return 0;
}
