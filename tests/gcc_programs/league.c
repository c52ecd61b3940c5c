/* Leagues of teams, each with a region and with tasks. */
#include "working.h"

#include <omp.h>

static int sum;

static void add(int what) {
#pragma omp atomic
    sum += what;
}

int main(void) {
#pragma omp teams num_teams(3) thread_limit(4)
    {
        int number = omp_get_team_num();
#pragma omp parallel
        {
#pragma omp single
            for (int i = 0; i < 5; i++) {
#pragma omp task firstprivate(i)
                add(10 * number + i), work();
            }
        }
#pragma omp parallel num_threads(2)
#pragma omp master
        {
#pragma omp task
            add(1000);
        }
    }
#pragma omp teams distribute parallel for num_teams(2)
    for (int i = 0; i < 10; i++) add(i);
    printf("league: %d\n", sum);
    return 0;
}
