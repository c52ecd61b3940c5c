/* A taskgroup that is cancelled, whose tasks have objects of classes: all that were copied are destroyed. */
#include "cancelling.h"

#include <atomic>

enum { TASKS = 40 };
static std::atomic<int> alive;

struct counted {
    int value;
    explicit counted(int value) : value(value) { alive++; }
    counted(const counted &from) : value(from.value) { alive++; }
    ~counted() { alive--; }
};

int main() {
#pragma omp parallel
#pragma omp single
    {
        counted object(0);
#pragma omp taskgroup
        for (int i = 0; i < TASKS; i++) {
            object.value = i;
#pragma omp task firstprivate(object)
            {
                count_body();
                work();
                if (object.value == 2) {
                    begin_cancel();
#pragma omp cancel taskgroup
                }
            }
        }
    }
    printf("cancel_copies: %d\n", alive.load());
    print_late();
    return 0;
}
