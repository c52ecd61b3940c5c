/* Tasks in a loop with a barrier at its end; one iteration creates them all. */
#include "../../../ompt/programs/unfinished.h"

int main(void) {
#pragma omp parallel num_threads(TEAM)
    {
#pragma omp for schedule(dynamic)
        for (int i = 0; i < TEAM; i++) {
            for (int task = 0; i == 0 && task < 8; task++) {
#pragma omp task firstprivate(task)
                finish(task);
            }
        }
#pragma omp master
        print_unfinished("loop", 8);
    }
    return 0;
}
