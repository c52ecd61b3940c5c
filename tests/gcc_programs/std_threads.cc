/* Threads of the C++ library that create tasks in regions of their own, and one that fulfils events of another's tasks. */
#include "working.h"

#include <atomic>
#include <omp.h>
#include <thread>
#include <vector>

static std::atomic<int> sum;

static void run(int number) {
#pragma omp parallel num_threads(2)
#pragma omp single
    for (int i = 0; i < 5; i++) {
#pragma omp task firstprivate(i)
        {
            work();
            sum += number * i;
        }
    }
}

int main() {
    std::vector<std::thread> threads;
    std::thread fulfiller;
    for (int i = 1; i <= 3; i++) threads.emplace_back(run, i);
    run(10);
    for (auto &it : threads) it.join();
#pragma omp parallel
#pragma omp single
    {
#pragma omp taskgroup
        {
            omp_event_handle_t event;
#pragma omp task detach(event) shared(fulfiller)
            fulfiller = std::thread([event] { omp_fulfill_event(event); });
        }
        sum += 1000;
    }
    fulfiller.join();
    printf("std_threads: %d\n", sum.load());
    return 0;
}
