/* Closes all files that it did not open, as daemons do, and has tasks before and after. */
#include <stdio.h>
#include <unistd.h>

static void work(void) {
#pragma omp parallel num_threads(2)
#pragma omp single
    for (int task = 0; task < 100; task++)
#pragma omp task
        usleep(100);
}

int main(void) {
    work();
    for (int file = 3; file < 1024; file++) close(file);
    work();
    puts("worked");
}
