/* Parallel regions of two threads inside another one, which the audit leaves out. */
int main(void) {
#pragma omp parallel num_threads(2)
#pragma omp parallel num_threads(2)
    {
#pragma omp barrier
    }
}
