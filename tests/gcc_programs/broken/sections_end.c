/* Tasks in sections with a barrier at their end; one section creates them all. */
#include "../../../ompt/programs/unfinished.h"

int main(void) {
#pragma omp parallel num_threads(TEAM)
    {
#pragma omp sections
        {
#pragma omp section
            usleep(1);
#pragma omp section
            for (int task = 0; task < 8; task++) {
#pragma omp task firstprivate(task)
                finish(task);
            }
        }
#pragma omp master
        print_unfinished("sections", 8);
    }
    return 0;
}
