/* children ROUNDS: in each round a task of about a tenth of a millisecond, and a taskwait. */
#include <stdlib.h>

static double work(int steps) {
    double sum = 0;
    for (int i = 1; i <= steps; i++) sum += 1.0 / i;
    return sum;
}

int main(int count, char **words) {
    int rounds = count > 1 ? atoi(words[1]) : 2;
    static double sum;
#pragma omp parallel
#pragma omp single
    for (int round = 0; round < rounds; round++) {
#pragma omp task
        sum += work(50000);
#pragma omp taskwait
    }
    return sum < 0;
}
