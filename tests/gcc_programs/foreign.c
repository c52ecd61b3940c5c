/* Threads of the program that each begin regions and create tasks, one after another and at once. */
#include "working.h"

#include <pthread.h>

enum { THREADS = 4 };
static int sum;

static void *run(void *data) {
    int number = *(int *)data;
#pragma omp task
    work();
    for (int round = 0; round < 3; round++) {
#pragma omp parallel num_threads(2)
#pragma omp single
        for (int i = 0; i < 5; i++) {
#pragma omp task firstprivate(i)
            {
                work();
#pragma omp atomic
                sum += 10 * number + i;
            }
        }
    }
    return NULL;
}

static void run_all(void) {
    pthread_t threads[THREADS];
    int numbers[THREADS];
    for (int i = 0; i < THREADS; i++) {
        numbers[i] = i;
        pthread_create(&threads[i], NULL, run, &numbers[i]);
    }
    for (int i = 0; i < THREADS; i++) pthread_join(threads[i], NULL);
}

int main(void) {
    run_all();
    run(&(int){7});
    run_all();
    printf("foreign: %d\n", sum);
    return 0;
}
