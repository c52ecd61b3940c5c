/* Teams that shrink and grow: threads of libgomp end and others begin. Its argument is how many seconds. */
#include "working.h"

#include <omp.h>
#include <stdlib.h>
#include <time.h>

static const int sizes[] = {4, 2, 1, 3, 2, 4, 1, 8, 2};
enum { SIZES = sizeof sizes / sizeof *sizes, LEAST_ROUNDS = 10 };
static int sum;

static void run(int size) {
#pragma omp parallel num_threads(size)
#pragma omp single
    for (int i = 0; i < 4; i++) {
#pragma omp task firstprivate(i)
        {
#pragma omp atomic
            sum += i;
        }
    }
}

int main(int count, char **words) {
    time_t end = time(NULL) + (count > 1 ? atoi(words[1]) : 0);
    int rounds = 0;
    while (rounds < LEAST_ROUNDS || time(NULL) < end) {
        for (int i = 0; i < SIZES; i++) run(sizes[i]);
        rounds++;
    }
    printf("team_sizes: %d\n", sum / rounds);
    return 0;
}
