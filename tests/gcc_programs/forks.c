/* Processes that are forked before and behind regions, and use OpenMP themselves. */
#include "working.h"

#include <stdlib.h>
#include <sys/wait.h>

static int sum;

static void run(int threads) {
#pragma omp parallel num_threads(threads)
#pragma omp single
    for (int i = 0; i < 6; i++) {
#pragma omp task firstprivate(i)
        {
            work();
#pragma omp atomic
            sum += i;
        }
    }
}

/* libgomp has no threads in a forked process, so its teams there have one. */
static int run_forked(void) {
    int status = 0;
    pid_t child = fork();
    if (child == 0) {
        run(1);
        exit(sum);
    }
    waitpid(child, &status, 0);
    return WEXITSTATUS(status);
}

int main(void) {
    int first = run_forked(), second;
    run(2);
    second = run_forked();
    run(3);
    printf("forks: %d %d %d\n", first, second, sum);
    return 0;
}
