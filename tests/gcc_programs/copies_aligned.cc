/* Objects of classes that need an alignment of 64 bytes, and taskloops that copy objects for each part. */
#include "working.h"

#include <atomic>
#include <cstdint>
#include <string>
#include <vector>

static std::atomic<int> alive, wrong;
static std::atomic<long> sum;

struct alignas(64) wide {
    int value;
    explicit wide(int value) : value(value) { alive++; }
    wide(const wide &from) : value(from.value) {
        alive++;
        look();
    }
    ~wide() {
        look();
        alive--;
    }
    void look() const {
        if (reinterpret_cast<std::uintptr_t>(this) % 64) wrong++;
    }
};

int main() {
#pragma omp parallel
#pragma omp single
    {
        wide object(5);
        std::string text(100, 'x');
        std::vector<int> numbers(50, 2);
        for (int i = 0; i < 10; i++) {
#pragma omp task firstprivate(object, text)
            {
                work();
                sum += object.value + static_cast<long>(text.size());
            }
        }
#pragma omp taskloop firstprivate(object, numbers) num_tasks(6)
        for (int i = 0; i < 30; i++) sum += object.value + numbers[static_cast<unsigned>(i)];
#pragma omp taskloop firstprivate(text) if (0) grainsize(4)
        for (int i = 0; i < 10; i++) sum += static_cast<long>(text.size());
    }
    printf("copies_aligned: %ld %d %d\n", sum.load(), alive.load(), wrong.load());
    return 0;
}
