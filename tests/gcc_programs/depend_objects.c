/* Dependences by depend objects, of each kind, alone and beside others, and after their kind is changed. */
#include "working.h"

#include <omp.h>

static int a, b, sum;

int main(void) {
    omp_depend_t of_a, of_b, mutex;
#pragma omp depobj(of_a) depend(inout : a)
#pragma omp depobj(of_b) depend(out : b)
#pragma omp depobj(mutex) depend(mutexinoutset : b)
#pragma omp parallel
#pragma omp single
    {
        for (int i = 0; i < 8; i++) {
#pragma omp task depend(depobj : of_a)
            a += i, work();
#pragma omp task depend(depobj : of_b) depend(in : a)
            b = a;
#pragma omp task depend(depobj : of_a, of_b)
            a += b % 7;
            for (int j = 0; j < 3; j++) {
#pragma omp task depend(depobj : mutex)
                b += j;
            }
        }
#pragma omp taskwait
#pragma omp depobj(of_a) update(in)
        for (int i = 0; i < 4; i++) {
#pragma omp task depend(depobj : of_a)
            {
#pragma omp atomic
                sum += a;
            }
        }
#pragma omp task depend(inout : a)
        a = 0;
    }
    printf("depend_objects: %d %d %d\n", a, b, sum);
#pragma omp depobj(of_a) destroy
#pragma omp depobj(of_b) destroy
#pragma omp depobj(mutex) destroy
    return 0;
}
