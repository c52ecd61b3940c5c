/* A chain of 1,500 tasks: a path has at most 1,024 numbers. */
static void down(int depth) {
    if (depth == 0) return;
#pragma omp task
    down(depth - 1);
#pragma omp taskwait
}

int main(void) {
#pragma omp parallel num_threads(2)
#pragma omp single
    down(1500);
}
