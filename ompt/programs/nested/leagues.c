/* Several leagues, with regions before, between and behind them, and a league with barriers in its regions. */
#include "nested.h"

static void begin_region(int first) {
#pragma omp parallel num_threads(2)
    {
        int member = omp_get_thread_num();
#pragma omp task firstprivate(first, member)
        finish(first + member);
#pragma omp task firstprivate(first, member)
        finish(first + 2 + member);
#pragma omp barrier
#pragma omp single
        print_unfinished_from("barrier", first, 4);
    }
}

int main(void) {
    allow_inner_regions();
    begin_region(0);
#pragma omp teams num_teams(2) thread_limit(2)
    begin_region(PER_TEAM + omp_get_team_num() * 4);
    begin_region(2 * PER_TEAM);
#pragma omp teams num_teams(2) thread_limit(2)
    begin_region(3 * PER_TEAM + omp_get_team_num() * 4);
#pragma omp parallel
#pragma omp single
    {
        for (int task = 0; task < 8; task++) {
#pragma omp task firstprivate(task)
            finish(4 * PER_TEAM + task);
        }
#pragma omp taskwait
        print_unfinished_from("taskwait", 4 * PER_TEAM, 8);
    }
    return 0;
}
