/* Objects of classes as data of tasks: each is copied once for its task, from the value it had, and destroyed once. */
#include "working.h"

#include <atomic>

static std::atomic<int> alive, copies, sum, wrong;

struct counted {
    int value;
    const counted *self;
    explicit counted(int value) : value(value), self(this) { alive++; }
    counted(const counted &from) : value(from.value), self(this) {
        alive++;
        copies++;
        if (from.self != &from) wrong++;
    }
    ~counted() {
        if (self != this) wrong++;
        alive--;
    }
};

int main() {
#pragma omp parallel
#pragma omp single
    {
        counted object(3), other(4);
        for (int i = 0; i < 20; i++) {
            object.value = i;
#pragma omp task firstprivate(object)
            {
                work();
                sum += object.value;
            }
#pragma omp task firstprivate(object, other) if (i % 2)
            sum += object.value + other.value;
#pragma omp task firstprivate(other, i) untied
            {
#pragma omp task firstprivate(other)
                sum += other.value;
            }
        }
#pragma omp taskwait
    }
    printf("copies: %d %d %d\n", sum.load(), alive.load(), wrong.load());
    return copies.load() < 20;
}
