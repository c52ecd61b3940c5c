/* Regions in which loops, sections and in some the region itself are cancelled, with barriers between them. */
#include "cancelling.h"

enum { ROUNDS = 24, LENGTH = 32 };
static int sum, singles;

static void create(int *counter) {
#pragma omp task
    {
#pragma omp atomic
        ++*counter;
    }
}

static void cancel_all(int round) {
#pragma omp parallel
    {
#pragma omp for schedule(dynamic)
        for (int i = 0; i < LENGTH; i++) {
            create(&sum);
            if (i == 5 + round % 7) {
#pragma omp cancel for
            }
#pragma omp cancellation point for
        }
#pragma omp sections
        {
#pragma omp section
            if (round % 2) {
#pragma omp cancel sections
            }
#pragma omp section
            create(&sum);
        }
#pragma omp single
        create(&singles);
#pragma omp for schedule(guided)
        for (int i = 0; i < LENGTH; i++) create(&sum);
        if (round % 4 == 1) {
#pragma omp cancel parallel
        }
#pragma omp barrier
        create(&sum);
#pragma omp cancellation point parallel
    }
}

int main(void) {
    for (int round = 0; round < ROUNDS; round++) cancel_all(round);
    printf("cancel_mixed: %d, %s\n", singles, sum > ROUNDS * LENGTH ? "others" : "no others");
    print_late();
    return 0;
}
