/* A stack that overflows in a task. */
static int down(volatile int depth) {
    volatile char room[4096];
    room[depth % 4096] = 1;
    return depth < 0 ? 0 : down(depth + 1) + room[0];
}

int main(void) {
#pragma omp parallel num_threads(2)
#pragma omp single
#pragma omp task
    down(0);
}
