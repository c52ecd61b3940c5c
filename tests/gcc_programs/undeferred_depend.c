/* Tasks that run at once, but wait for their dependences first: by if(0) and inside a final task. */
#include "working.h"

static int a, b;

int main(void) {
#pragma omp parallel
#pragma omp single
    {
        for (int i = 0; i < 12; i++) {
#pragma omp task depend(out : a)
            work(), a = i;
#pragma omp task depend(inout : a) if (0)
            a++;
            b += a;
#pragma omp task depend(inout : b) depend(mutexinoutset : a) if (i < 0)
            b++;
        }
#pragma omp task final(1) depend(inout : a)
        {
#pragma omp task depend(out : b)
            b++;
#pragma omp task depend(inout : b)
            b *= 2;
        }
    }
    printf("undeferred_depend: %d %d\n", a, b);
    return 0;
}
