/* Dependences: a chain of writers and readers over two locations, each of which looks whether those before it are done. */
#include "unfinished.h"

int main(void) {
    int first = 0, second = 0;
#pragma omp parallel num_threads(TEAM)
#pragma omp single
    {
#pragma omp task depend(out : first)
        finish(0);
#pragma omp task depend(in : first) depend(out : second)
        {
            print_unfinished("depend", 1);
            finish(1);
        }
#pragma omp task depend(in : first)
        finish(2);
#pragma omp task depend(inout : first) depend(in : second)
        {
            print_unfinished("depend", 3);
            finish(3);
        }
#pragma omp taskwait
        print_unfinished("taskwait", 4);
    }
    return first + second;
}
