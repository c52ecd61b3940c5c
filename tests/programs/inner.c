/* Inner regions of one thread, one of them in an explicit task: nothing is created in them. */
int main(void) {
#pragma omp parallel num_threads(2)
    {
#pragma omp task
#pragma omp parallel num_threads(1)
    {
#pragma omp barrier
    }
#pragma omp parallel num_threads(1)
        {
        }
#pragma omp taskwait
    }
}
