/* Exceptions that are thrown and caught inside tasks, through functions that wait, and inside parts of taskloops. */
#include "working.h"

#include <atomic>
#include <stdexcept>
#include <string>

static std::atomic<int> caught, ended;

static void descend(int depth) {
    if (depth == 0) throw std::runtime_error("bottom");
#pragma omp task
    ended++;
#pragma omp taskwait
    descend(depth - 1);
}

static void attempt(int depth) {
    try {
        descend(depth);
    } catch (const std::exception &error) {
        caught += error.what() == std::string("bottom");
    }
}

int main() {
#pragma omp parallel
#pragma omp single
    {
        for (int i = 0; i < 12; i++) {
#pragma omp task firstprivate(i)
            {
                work();
                attempt(i % 4);
            }
        }
#pragma omp taskwait
#pragma omp taskgroup
        {
#pragma omp task if (0)
            attempt(2);
        }
#pragma omp taskloop num_tasks(3)
        for (int i = 0; i < 9; i++) {
            try {
                if (i % 2) throw i;
            } catch (int) {
                caught++;
            }
        }
    }
    printf("exceptions: %d %d\n", caught.load(), ended.load());
    return 0;
}
