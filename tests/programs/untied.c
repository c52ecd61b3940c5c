/* An untied task that creates tasks, yields and waits: each part is reported. On one thread it cannot move. */
int main(void) {
    int done = 0;
#pragma omp parallel num_threads(1)
#pragma omp single
    {
#pragma omp task untied shared(done)
        {
#pragma omp task shared(done)
            done++;
#pragma omp taskyield
#pragma omp taskwait
            done++;
        }
#pragma omp taskwait
    }
    return done != 2;
}
