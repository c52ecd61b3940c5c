/* More tasks than a file may have. */
int main(void) {
#pragma omp parallel num_threads(4)
#pragma omp single
    for (int task = 0; task < 3000000; task++)
#pragma omp task
        ;
}
