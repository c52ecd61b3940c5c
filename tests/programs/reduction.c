/* Reductions, of a loop and of tasks. */
int main(void) {
    int sum = 0;
#pragma omp parallel num_threads(4)
    {
#pragma omp for reduction(+ : sum)
        for (int i = 0; i < 16; i++) sum += i;
#pragma omp single
#pragma omp taskgroup task_reduction(+ : sum)
        {
#pragma omp task in_reduction(+ : sum)
            sum++;
        }
    }
    return sum != 121;
}
