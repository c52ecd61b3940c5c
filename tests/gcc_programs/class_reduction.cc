/* A reduction of objects of a class by a declared operation, over tasks and taskloops. */
#include "working.h"

#include <vector>

struct bag {
    std::vector<int> items;
    void add(int what) { items.push_back(what); }
    void join(const bag &other) { items.insert(items.end(), other.items.begin(), other.items.end()); }
    int sum() const {
        int total = 0;
        for (int it : items) total += it;
        return total;
    }
};
#pragma omp declare reduction(join : bag : omp_out.join(omp_in))

int main() {
    bag of_group, of_loop, of_region;
#pragma omp parallel
#pragma omp single
    {
#pragma omp taskgroup task_reduction(join : of_group)
        for (int i = 0; i < 20; i++) {
#pragma omp task in_reduction(join : of_group) firstprivate(i)
            {
                work();
                of_group.add(i);
            }
        }
#pragma omp taskloop reduction(join : of_loop) num_tasks(5)
        for (int i = 0; i < 30; i++) of_loop.add(i);
    }
#pragma omp parallel reduction(task, join : of_region)
#pragma omp single
    for (int i = 0; i < 10; i++) {
#pragma omp task in_reduction(join : of_region) firstprivate(i)
        of_region.add(i);
    }
    printf("class_reduction: %d %d %d\n", of_group.sum(), of_loop.sum(), of_region.sum());
    return 0;
}
