/* Dependences in the older layout of lists: chains, readers between writers, several locations, the same one twice. */
#include "working.h"

static int a, b, c, readers;

int main(void) {
    a = 1;
#pragma omp parallel
#pragma omp single
    {
        for (int i = 0; i < 10; i++) {
#pragma omp task depend(out : a)
            a = a * 3 % 1009, work();
#pragma omp task depend(in : a) depend(out : b)
            b = a + i;
            for (int reader = 0; reader < 3; reader++) {
#pragma omp task depend(in : a, b)
                {
                    int sum = a + b;
#pragma omp atomic
                    readers += sum;
                }
            }
#pragma omp task depend(inout : b, c) depend(in : a)
            c = c + b - a;
#pragma omp task depend(inout : c) depend(in : c)
            c = c % 1000;
        }
    }
    printf("dependences: %d %d %d %d\n", a, b, c, readers);
    return 0;
}
