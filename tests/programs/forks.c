/* A process that is forked, and ends by exit() too: it has no file of its own. */
#include <stdlib.h>
#include <sys/wait.h>
#include <unistd.h>

int main(void) {
#pragma omp parallel num_threads(2)
    {
#pragma omp barrier
    }
    if (fork() == 0) exit(0);
    wait(0);
#pragma omp parallel num_threads(2)
#pragma omp task
    usleep(1);
}
