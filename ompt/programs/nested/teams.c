/* Teams with distribute, whose regions create tasks and wait for them at a taskwait and at their ends. */
#include "nested.h"

static void create_tasks(int first) {
    for (int task = 0; task < 6; task++) {
#pragma omp task firstprivate(first, task)
        finish(first + task);
    }
#pragma omp taskwait
    print_unfinished_from("taskwait", first, 6);
}

int main(void) {
    allow_inner_regions();
    int sum = 0;
#pragma omp teams num_teams(2) thread_limit(2)
    {
        int team = omp_get_team_num();
#pragma omp distribute parallel for
        for (int i = 0; i < 8; i++)
#pragma omp atomic
            sum += i;
#pragma omp parallel num_threads(2)
        {
#pragma omp single
            create_tasks(PER_TEAM * team);
            int last = PER_TEAM * team + 6 + omp_get_thread_num();
#pragma omp task firstprivate(last)
            finish(last);
        }
        print_unfinished_from("parallel", PER_TEAM * team, PER_TEAM);
    }
    return sum != 28;
}
