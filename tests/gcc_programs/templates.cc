/* Tasks in templates, in lambdas, in methods and in constructors. */
#include "working.h"

#include <algorithm>
#include <atomic>
#include <vector>

template <typename T> static T sum_of(const T *from, const T *to) {
    if (to - from < 20) {
        T sum = T();
        while (from < to) sum += *from++;
        return sum;
    }
    T left = T(), right = T();
    const T *middle = from + (to - from) / 2;
#pragma omp task shared(left)
    left = sum_of(from, middle);
#pragma omp task shared(right)
    right = sum_of(middle, to);
#pragma omp taskwait
    return left + right;
}

template <int Depth> struct tower {
    static int height() {
        int below = 0;
#pragma omp task shared(below)
        below = tower<Depth - 1>::height();
#pragma omp taskwait
        return below + 1;
    }
};
template <> struct tower<0> {
    static int height() { return 0; }
};

struct worker {
    std::atomic<int> total{0};
    explicit worker(int count) {
        for (int i = 0; i < count; i++) {
#pragma omp task firstprivate(i)
            add(i);
        }
#pragma omp taskwait
    }
    void add(int what) { total += what; }
};

int main() {
    std::vector<long> numbers(300);
    long sum = 0, total = 0;
    int height = 0;
    for (std::size_t i = 0; i < numbers.size(); i++) numbers[i] = static_cast<long>(i);
    auto run = [&] {
        sum = sum_of(numbers.data(), numbers.data() + numbers.size());
        height = tower<10>::height();
        total = worker(12).total;
    };
#pragma omp parallel
#pragma omp single
    run();
    printf("templates: %ld %d %ld\n", sum, height, total);
    return 0;
}
