/* Target tasks on the host, with nowait and dependences, beside the tasks of a team and of an inner one. */
#include "nested.h"

int main(void) {
    int one = 0, two = 0;
    allow_inner_regions();
#pragma omp parallel
#pragma omp single
    {
#pragma omp task depend(out : one) depend(out : two)
        {
            usleep(10 * TASK_MICROSECONDS); /* hidden helper threads are begun meanwhile */
            finish(0);
        }
#pragma omp target nowait depend(inout : one) map(tofrom : one)
        {
            print_unfinished("target", 1);
            finish(1);
            one = 1;
        }
#pragma omp task depend(in : one) depend(out : two)
        {
            print_unfinished("depend", 2);
            finish(2);
        }
#pragma omp parallel num_threads(2)
#pragma omp single
        {
            for (int task = 3; task < 7; task++) {
#pragma omp task firstprivate(task)
                finish(task);
            }
#pragma omp taskwait
            print_unfinished_from("inner taskwait", 3, 4);
        }
#pragma omp taskwait
        print_unfinished("taskwait", 7);
    }
    return one != 1;
}
